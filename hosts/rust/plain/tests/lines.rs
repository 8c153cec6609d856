//! The rules that hold for every line of a text, 1 to 4, and their order before all others.
//! Above the header and below [End] they are the only rules.

mod example;

use plain::{intake, Answer};

fn answer(text: &[u8]) -> Answer {
    intake(text, &mut [1; 8_192])
}

fn example() -> Vec<u8> {
    format!("{}\n", example::LINES.replace(';', "\n")).into_bytes()
}

fn followed_by(tail: &[u8]) -> Answer {
    answer(&[&example(), tail].concat())
}

#[test]
fn texts_without_a_header() {
    assert_eq!(answer(b""), Answer::Refused(5, 0));
    assert_eq!(answer(b"\n"), Answer::Refused(5, 0));
    assert_eq!(answer(b"x"), Answer::Refused(4, 1));
    assert_eq!(answer(b"x\ny"), Answer::Refused(4, 2));
    assert_eq!(answer(b"x\x7f\ny"), Answer::Refused(2, 1));
}

#[test]
fn terminators() {
    let both = example::LINES.replace(';', "\r\n") + "\r\n";
    assert!(matches!(answer(both.as_bytes()), Answer::Accepted(92)));
    assert_eq!(followed_by(b"\r"), Answer::Refused(2, 40));
    assert_eq!(followed_by(b"x\r\r\n"), Answer::Refused(2, 40));
    assert_eq!(followed_by(b"x\ry\n"), Answer::Refused(2, 40));
    assert_eq!(followed_by(b"\r\n"), Answer::Accepted(92));
}

#[test]
fn bytes_in_and_out_of_bounds() {
    for byte in 0..=255 {
        let stands = matches!(byte, b' '..=b'~' | b'\t' | b'\n');
        let expected = if stands { Answer::Accepted(92) } else { Answer::Refused(2, 40) };
        assert_eq!(followed_by(&[byte, b'x', b'\n']), expected, "{byte}");
        assert_eq!(followed_by(&[b'|', byte, b'|', b'\n']) == Answer::Refused(2, 40), !stands, "{byte}");
    }
}

#[test]
fn lengths() {
    assert_eq!(followed_by(&[&[b'x'; 120][..], b"\r\n"].concat()), Answer::Accepted(92));
    assert_eq!(followed_by(&[&[b'x'; 121][..], b"\n"].concat()), Answer::Refused(3, 40));
    assert_eq!(followed_by(&[b"|", &[b'|'; 120][..], b"\n"].concat()), Answer::Refused(3, 40));
    assert_eq!(followed_by(&[b'x'; 121]), Answer::Refused(3, 40));
    assert_eq!(followed_by(&[&[b'x'; 121][..], b"\r"].concat()), Answer::Refused(2, 40));
    assert_eq!(followed_by(&[b'x'; 120]), Answer::Refused(4, 40));
}

#[test]
fn every_line_is_judged_before_what_the_lines_hold() {
    let broken = [b"[Begin Header] x\n".as_slice(), &example(), b"\x00\n"].concat();
    assert_eq!(answer(&broken), Answer::Refused(2, 41));
    let unused = example::LINES.replace("[End ICM Section];", "");
    assert_eq!(answer(unused.replace(';', "\n").as_bytes()), Answer::Refused(4, 38));
}

#[test]
fn size_goes_before_all() {
    let mut text = example();
    text.resize(1_048_575, b'\n');
    text.push(b'\n');
    assert_eq!(answer(&text), Answer::Accepted(92));
    text.push(0);
    assert_eq!(answer(&text), Answer::Refused(1, 0));
}

#[test]
fn room_is_counted_before_names() {
    let text = example();
    let unlisted = example::LINES.replace("[ICM Model List];A;", "[ICM Model List];") + ";";
    for (words, first, second) in [
        (0, Answer::Refused(18, 0), Answer::Refused(18, 0)),
        (91, Answer::Refused(18, 0), Answer::Refused(18, 0)),
        (92, Answer::Accepted(92), Answer::Refused(20, 9)),
    ] {
        let mut table = vec![7; words];
        assert_eq!(intake(&text, &mut table), first);
        assert_eq!(table.iter().all(|&word| word == 0), words < 92);
        let mut table = vec![7; words];
        assert_eq!(intake(unlisted.replace(';', "\n").as_bytes(), &mut table), second);
        assert!(table.iter().all(|&word| word == 0));
    }
}
