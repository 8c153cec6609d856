// raw.rs: the proved functions over tables of one's own: long, short, bent and empty ones.
// Everything is asked about the paper's example, which needs 92 words.
use skumvari::raw::{self, MatrixError, Place};
use skumvari::Kind;

const TEXT: &[u8] = include_bytes!("paper.icm");
const USED: usize = 92;
const L: u64 = Kind::Inductance as u64;

fn table() -> Vec<u64> {
    let mut table = vec![u64::MAX; 100];
    assert_eq!(raw::intake(TEXT, &mut table), Ok(USED));
    table
}

#[test]
fn words_past_those_used_are_zeroed() {
    assert!(table()[USED..].iter().all(|word| *word == 0));
    assert!(raw::table_words() > USED);
}

#[test]
fn a_refused_table_is_zeroed() {
    for length in 0..USED {
        let mut short = vec![u64::MAX; length];
        let refusal = raw::intake(TEXT, &mut short).expect_err("too short");
        assert_eq!((refusal.number, refusal.name, refusal.line), (18, "ROOM", 0));
        assert!(short.iter().all(|word| *word == 0));
    }
    let mut empty_text = vec![u64::MAX; 100];
    assert_eq!(raw::intake(b"", &mut empty_text).map_err(|refusal| (refusal.number, refusal.line)), Err((5, 0)));
    assert_eq!(empty_text, [0; 100]);
}

#[test]
fn a_table_is_sound_for_its_text() {
    let table = table();
    for length in 0..=table.len() {
        assert_eq!(raw::sound(TEXT, &table[..length]), length >= USED, "{length}");
    }
    assert!(!raw::sound(b"", &table));
    assert!(raw::sound(b"", &[0; 7]));
    assert!(!raw::sound(b"", &[0; 6]));
}

#[test]
fn every_question_over_a_bent_table_is_refused_30() {
    let mut bent = table();
    bent[USED] = 1;
    assert!(!raw::sound(TEXT, &bent));
    assert_eq!(raw::entry(TEXT, &bent, 0, L, 1, 1).expect_err("bent").number, 30);
    assert_eq!(raw::step(TEXT, &bent, Place::start(0)).expect_err("bent").number, 30);
    let mut values = [7; 4];
    match raw::matrix(TEXT, &bent, 0, L, &mut values) {
        Err(MatrixError::Refused(refusal)) => assert_eq!((refusal.number, refusal.line), (30, 0)),
        other => panic!("{other:?}"),
    }
    assert_eq!(values, [7; 4]);
}

#[test]
fn what_is_out_of_range_is_refused_31() {
    let table = table();
    let most = u64::MAX;
    for [section, kind, row, column] in
        [[1, L, 1, 1], [0, 4, 1, 1], [0, L, 0, 1], [0, L, 3, 1], [0, L, 1, 0], [0, L, 1, 3], [most, most, most, most]]
    {
        assert_eq!(raw::entry(TEXT, &table, section, kind, row, column).expect_err("out of range").number, 31);
    }
    for (model, step, depth) in [(1, 0, 0), (0, 7, 0), (0, 0, 1), (0, 3, 0), (most, most, most)] {
        let place = Place { model, step, depth };
        assert_eq!(raw::step(TEXT, &table, place).expect_err("out of range").number, 31);
    }
}

#[test]
fn a_whole_matrix_needs_its_words() {
    let table = table();
    for length in 0..6 {
        let mut values = vec![7; length];
        let answer = raw::matrix(TEXT, &table, 0, L, &mut values);
        if length < 4 {
            assert_eq!(answer, Err(MatrixError::TooFewValues { conductors: 2 }));
            assert!(values.iter().all(|word| *word == 7));
        } else {
            assert_eq!(answer, Ok(2));
            assert_eq!(values[..4], [11628, 2156, 2156, 11628]);
            assert!(values[4..].iter().all(|word| *word == 7));
        }
    }
}

#[test]
fn a_walk_goes_from_place_to_place() {
    let table = table();
    let mut place = Place::start(0);
    let mut kinds = Vec::new();
    while let Some((words, next)) = raw::step(TEXT, &table, place).expect("a place of model A") {
        kinds.push(words.kind);
        place = next;
    }
    assert_eq!(kinds, [0, 1, 2, 1, 3, 0]);
    assert_eq!(place, Place { model: 0, step: 6, depth: 0 });
}

const LISTING: &str = "accepted 92
models 1
A MLM 6
steps 6
end 13 P
section 14 S 2
fork 15
section 16 S 1
endfork 17
end 18 Q
maps 2
P 2
Q 2
sections 1
S Lumped 2
values 3
S L 1 1 45e-10
S L 1 2 8e-10
S L 2 2 45e-10
";

#[test]
fn a_listing_is_written_as_far_as_there_is_room() {
    let table = table();
    for length in 0..=LISTING.len() + 2 {
        let mut room = vec![b'~'; length];
        let written = raw::list(TEXT, &table, USED, &mut room);
        assert_eq!(written, length.min(LISTING.len()));
        assert_eq!(room[..written], LISTING.as_bytes()[..written]);
        assert!(room[written..].iter().all(|byte| *byte == b'~'));
    }
}

/// No word of a table is trusted: one whose counts do not fit shows no records.
#[test]
fn every_table_is_listed() {
    let mut room = vec![0; 100];
    let length = raw::list(TEXT, &[u64::MAX; 100], 7, &mut room);
    assert_eq!(&room[..length], b"accepted 7\nmodels 0\nsteps 0\nmaps 0\nsections 0\nvalues 0\n");
}

#[test]
fn without_judging_the_answers_are_the_same() {
    let table = table();
    for [section, kind, row, column] in
        [[0, L, 1, 1], [0, L, 2, 1], [0, 0, 2, 2], [0, L, 3, 1], [1, L, 1, 1], [0, 4, 1, 1]]
    {
        // SAFETY: the table is what the intake left for the text.
        let unjudged = unsafe { raw::entry_unjudged(TEXT, &table, section, kind, row, column) };
        assert_eq!(unjudged, raw::entry(TEXT, &table, section, kind, row, column));
    }
    let mut values = [7; 5];
    // SAFETY: the table is what the intake left for the text.
    assert_eq!(unsafe { raw::matrix_unjudged(TEXT, &table, 0, L, &mut values) }, Ok(2));
    assert_eq!(values, [11628, 2156, 2156, 11628, 7]);
    let mut place = Place::start(0);
    // SAFETY: the table is what the intake left for the text, and the place a start or handed back.
    while let Some((words, next)) = unsafe { place.step_unjudged(TEXT, &table) }.expect("a place of model A") {
        assert_eq!(Ok(Some((words, next))), place.step(TEXT, &table));
        place = next;
    }
    assert_eq!(place, Place { model: 0, step: 6, depth: 0 });
}
