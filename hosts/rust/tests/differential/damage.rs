// damage.rs: breaks a file in one of the ways that people and programs do, mostly so that one rule or two are broken.
// What is drawn leans towards lines and words that mean something at another place.
use crate::random::Random;

/// The lines of a text, each with its end.
type Lines = Vec<Vec<u8>>;

/// A damaged copy of a text, by one of the ways, of which there are eight. Sometimes it is damaged further by any of them.
pub fn damaged(text: &[u8], way: u64, random: &mut Random) -> Vec<u8> {
    let mut text = damaged_once(text.to_vec(), way, random);
    while random.percent(20) {
        let way = random.word();
        text = damaged_once(text, way, random);
    }
    text
}

fn damaged_once(text: Vec<u8>, way: u64, random: &mut Random) -> Vec<u8> {
    let change = match way % 8 {
        0 if random.percent(40) => return cut(text, random),
        0 => return change_byte(text, random),
        1 | 2 => change_line,
        3 => change_word,
        4 => change_number,
        5 | 6 if random.percent(20) => add_ratio,
        5 | 6 => change_saying,
        _ => change_name,
    };
    let mut lines: Lines = text.split_inclusive(|byte| *byte == b'\n').map(<[u8]>::to_vec).collect();
    if !lines.is_empty() {
        change(&mut lines, random);
    }
    lines.concat()
}

fn cut(mut text: Vec<u8>, random: &mut Random) -> Vec<u8> {
    let mut length = random.between(0, text.len());
    match random.below(4) {
        0 => length = text.len().saturating_sub(1),
        // Whole lines stay, so that the text stops early and is well formed to there.
        1 | 2 => length = text[..length].iter().rposition(|byte| *byte == b'\n').map_or(0, |last| last + 1),
        _ => {}
    }
    text.truncate(length);
    text
}

fn change_byte(mut text: Vec<u8>, random: &mut Random) -> Vec<u8> {
    if !text.is_empty() {
        let place = random.below(text.len());
        text[place] = match random.below(4) {
            0 => random.word() as u8,
            1 => *random.pick(&[0, 0x0a, 0x0d, 0x1f, 0x7f, 0x80, 0xff]),
            _ => *random.pick(b" \t|=[]_-.:0123456789eEkn"),
        };
    }
    text
}

/// A line is left out, doubled, moved, put in or made long.
fn change_line(lines: &mut Lines, random: &mut Random) {
    let place = random.below(lines.len());
    let other = if random.percent(50) { random.below(lines.len()) } else { (place + 1).min(lines.len() - 1) };
    match random.below(6) {
        0 | 1 => drop(lines.remove(place)),
        2 => lines.insert(other, lines[place].clone()),
        3 => lines.swap(place, other),
        4 => lines.insert(place, stock_line(random)),
        _ => lengthen(&mut lines[place], random),
    }
}

/// Lines that belong somewhere, or nowhere.
#[rustfmt::skip]
const STOCK: [&str; 64] = [
    "x", " [x]", "[x", "[]", "[End Header]]", "[A  B]", "[S-parameter]", "[Foo]", "[ICM Section]", "[Begin Header]", "[ICM Ver] 1.1",
    "[Date]", "[Notes]", "[End Header]", "[Manufacturer] O", "[ICM Model List]", "[Begin ICM Model] GND", "[Begin ICM Model] M",
    "[Tree Path Description]", "[ICM Model Description]", "[End ICM Model]", "[ICM Pin Map] P", "[End ICM Family]",
    "[Begin ICM Section] S", "[Derivation Method] Lumped", "[Resistance Matrix] Full_matrix", "[Capacitance Matrix] Diagonal_matrix",
    "[Bandwidth] 1", "[Row] 1", "[Row] x", "[End ICM Section]", "[End]", "[Comment Char] #_char", "[Nodal Path Description]",
    "[icm_node map] x", "[ICM Swath Parameters]", "[ICM Swath Pin Numbers]", "[Frequency] 1", "[ICM s-Parameter]", "Fork", "Endfork",
    "Endfork x", "Side x", "Side", "Model_pinmap P", "Section Mult=1 S", "Section Len=1 S", "Section Mult=1", "ICM_model_type MLM",
    "ICM_model_type x", "SGR 1:1", "SGR x:1", "Ref_impedance=5", "Ref_impedance==5", "Pin_order Un_ordered", "Pin_list",
    "Num_of_rows=1", "Num_of_columns = 300", "1", "1 2", "1 2 3", "1e99", "nH", "\x7f",
];

fn stock_line(random: &mut Random) -> Vec<u8> {
    format!("{}\n", random.pick(&STOCK)).into_bytes()
}

/// A comment takes the line to about its greatest length.
fn lengthen(line: &mut Vec<u8>, random: &mut Random) {
    let end = line.iter().position(|byte| matches!(byte, b'\r' | b'\n')).unwrap_or(line.len());
    let wanted = random.between(119, 122);
    line.splice(end..end, std::iter::once(b'|').chain(std::iter::repeat_n(b'c', wanted.saturating_sub(end + 1))));
}

/// The places of a line's words.
fn words(line: &[u8]) -> Vec<std::ops::Range<usize>> {
    let is_blank = |byte: &u8| matches!(byte, b' ' | b'\t' | b'\r' | b'\n' | b'=');
    let mut words = Vec::new();
    let mut start = None;
    for (place, byte) in line.iter().enumerate() {
        match (start, is_blank(byte)) {
            (None, false) => start = Some(place),
            (Some(first), true) => {
                words.push(first..place);
                start = None;
            }
            _ => {}
        }
    }
    words.extend(start.map(|first| first..line.len()));
    words
}

/// A word is left out, doubled, or becomes a word of another line.
fn change_word(lines: &mut Lines, random: &mut Random) {
    let (place, other) = (random.below(lines.len()), random.below(lines.len()));
    let (here, there) = (words(&lines[place]), words(&lines[other]));
    if here.is_empty() || there.is_empty() {
        return;
    }
    let range = random.pick(&here).clone();
    let new = match random.below(6) {
        0 => Vec::new(),
        1 => [&lines[place][range.clone()], b" ", &lines[place][range.clone()]].concat(),
        2 => random.pick(&["POWER", "NA", "x", "Mult", "Len", "="]).as_bytes().to_vec(),
        _ => lines[other][random.pick(&there).clone()].to_vec(),
    };
    lines[place].splice(range, new);
}

/// Numbers that are odd, great or none.
#[rustfmt::skip]
const ODD_NUMBERS: [&str; 41] = [
    "0", "1", "2", "3", "255", "256", "257", "65535", "65536", "999999999", "1000000000", "0000000001", "-1", "+1", "1.0", ".", "+", "-0",
    "1e60", "1e61", "1e-60", "1e-61", "10e60", "1e99x5", "2e+", "1e3e3", "1e61p", "1e-61k", "999999999999999", "9999999999999999", "1..2",
    "0e999", "0x1", "1n2", "1_0", "99999999999999999999", "18446744073709551616", "1e18446744073709551616", "1 2", "1|2", "",
];

/// A word that starts with a digit becomes one of these.
fn change_number(lines: &mut Lines, random: &mut Random) {
    let is_number = |line: &[u8], range: &std::ops::Range<usize>| line[range.start].is_ascii_digit();
    let mut numbers = Vec::new();
    for (place, line) in lines.iter().enumerate() {
        numbers.extend(words(line).into_iter().filter(|range| is_number(line, range)).map(|range| (place, range)));
    }
    if numbers.is_empty() {
        return;
    }
    let (place, range) = random.pick(&numbers).clone();
    lines[place].splice(range, random.pick(&ODD_NUMBERS).bytes());
}

/// Words that decide something, and what they become: the lines stay in shape, and the rules across lines are broken.
const SAYINGS: [(&str, &str); 18] = [
    ("Mult", "Len"),
    ("Len", "Mult"),
    ("Lumped", "Distributed"),
    ("Distributed", "Lumped"),
    ("MLM", "SLM_quiescent"),
    ("MLM", "SLM_general"),
    ("SLM_quiescent", "SLM_general"),
    ("SLM_general", "SLM_quiescent"),
    ("SLM_general", "MLM"),
    ("Row_ordered", "Un_ordered"),
    ("Un_ordered", "Column_ordered"),
    ("Diagonal_matrix", "Full_matrix"),
    ("Full_matrix", "Sparse_matrix"),
    ("Banded_matrix", "Full_matrix"),
    ("side1", "side0"),
    ("Fork", "Endfork"),
    ("Endfork", "Fork"),
    ("Side", "Model_pinmap"),
];

fn change_saying(lines: &mut Lines, random: &mut Random) {
    let first = random.below(SAYINGS.len());
    for turn in 0..SAYINGS.len() {
        let (old, new) = SAYINGS[(first + turn) % SAYINGS.len()];
        let mut found = Vec::new();
        for (place, line) in lines.iter().enumerate() {
            found.extend(
                words(line)
                    .into_iter()
                    .filter(|range| &line[range.clone()] == old.as_bytes())
                    .map(|range| (place, range)),
            );
        }
        if !found.is_empty() {
            let (place, range) = random.pick(&found).clone();
            lines[place].splice(range, new.bytes());
            return;
        }
    }
}

/// A model of any type gets an SGR line above or below its type: SLM_general has one already, the others may have none.
fn add_ratio(lines: &mut Lines, random: &mut Random) {
    let is_type = |line: &[u8]| words(line).first().map(|word| &line[word.clone()]) == Some(&b"ICM_model_type"[..]);
    let types: Vec<usize> = (0..lines.len()).filter(|place| is_type(&lines[*place])).collect();
    if !types.is_empty() {
        let place = random.pick(&types) + random.below(2);
        lines.insert(place, b"SGR 3:1\n".to_vec());
    }
}

/// The starts of lines that end in a name, in the spelling that most of them have.
const NAMING: [&str; 6] =
    ["Model_pinmap ", "Section ", "Side ", "[Begin ICM Model] ", "[ICM Pin Map] ", "[Begin ICM Section] "];

/// The name of a definition or a use becomes another of its kind, or a new one; or its line, or the first of the list or of the pins, is
/// left out or doubled.
fn change_name(lines: &mut Lines, random: &mut Random) {
    let start = random.pick(&NAMING).as_bytes();
    let named: Vec<usize> = (0..lines.len()).filter(|place| lines[*place].starts_with(start)).collect();
    let heads: [&[u8]; 2] = [b"[ICM Model List]", b"Pin_list"];
    let below = lines.iter().position(|line| heads.iter().any(|head| line.starts_with(head)) && random.percent(50));
    let (Some(below), false) = (below, named.is_empty()) else { return };
    let (place, other) = (*random.pick(&named), *random.pick(&named));
    let first = (below + 1).min(lines.len() - 1);
    match (random.below(8), words(&lines[place]).pop(), words(&lines[other]).pop()) {
        (0, _, _) => drop(lines.remove(place)),
        (1, _, _) => drop(lines.remove(first)),
        (2, _, _) => lines.insert(first, lines[first].clone()),
        (3, Some(range), _) => drop(lines[place].splice(range.end..range.end, *b"z")),
        (4 | 5, Some(range), Some(from)) => {
            let new = lines[other][from].to_vec();
            lines[place].splice(range, new);
        }
        (_, Some(range), Some(from)) => rename(lines, &named, (place, range), (other, from)),
        _ => {}
    }
}

/// One name becomes another on all of some lines, so that nothing is left that has the first.
fn rename(
    lines: &mut Lines,
    named: &[usize],
    old: (usize, std::ops::Range<usize>),
    new: (usize, std::ops::Range<usize>),
) {
    let (old, new) = (lines[old.0][old.1].to_vec(), lines[new.0][new.1].to_vec());
    for place in named {
        if let Some(range) = words(&lines[*place]).pop().filter(|range| lines[*place][range.clone()] == old[..]) {
            lines[*place].splice(range, new.iter().copied());
        }
    }
}
