//! The listing of an accepted file: the parts of its table in order, a record a line.
//! Names come from the text, numbers are written as m, `e`, k.

use crate::number;
use crate::sound::sound_parts;
use crate::table::Parts;

const MODEL_TYPES: [&str; 3] = ["SLM_general", "SLM_quiescent", "MLM"];
const METHODS: [&str; 2] = ["Lumped", "Distributed"];
const KINDS: [&str; 4] = ["R", "L", "G", "C"];

/// The listing of `text` from the `table` that its intake filled. An unsound table has an empty listing.
pub fn listing(text: &[u8], table: &[u64]) -> Vec<u8> {
    let Some(parts) = sound_parts(text, table) else { return Vec::new() };
    let mut writer = Writer { text, bytes: Vec::new() };
    writer.append("accepted").number((table.len() - parts.rest.len()) as u64).end();
    writer.models(&parts);
    writer.steps(&parts);
    writer.maps(&parts);
    writer.sections(&parts);
    writer.values(&parts);
    writer.bytes
}

/// Writes lines of fields parted by a space.
struct Writer<'a> {
    text: &'a [u8],
    bytes: Vec<u8>,
}

impl Writer<'_> {
    fn append(&mut self, word: &str) -> &mut Self {
        self.bytes.extend_from_slice(word.as_bytes());
        self
    }

    fn append_name(&mut self, start: u64, length: u64) -> &mut Self {
        let text = self.text;
        self.bytes.extend_from_slice(&text[start as usize..][..length as usize]);
        self
    }

    fn word(&mut self, word: &str) -> &mut Self {
        self.bytes.push(b' ');
        self.append(word)
    }

    fn name(&mut self, start: u64, length: u64) -> &mut Self {
        self.bytes.push(b' ');
        self.append_name(start, length)
    }

    fn number(&mut self, number: u64) -> &mut Self {
        self.bytes.push(b' ');
        self.decimal(number)
    }

    fn value(&mut self, word: u64) -> &mut Self {
        let (mantissa, exponent, negative) = number::parts(word);
        self.word(if negative { "-" } else { "" }).decimal(mantissa);
        self.append(if exponent < 0 { "e-" } else { "e" }).decimal(exponent.unsigned_abs())
    }

    /// Writes digits only; a listing has so many numbers that formatting each would take most of its time.
    fn decimal(&mut self, mut number: u64) -> &mut Self {
        let start = self.bytes.len();
        loop {
            self.bytes.push(b'0' + (number % 10) as u8);
            number /= 10;
            if number == 0 {
                break;
            }
        }
        self.bytes[start..].reverse();
        self
    }

    fn end(&mut self) {
        self.bytes.push(b'\n');
    }

    fn models(&mut self, parts: &Parts) {
        self.append("models").number(parts.models.len() as u64).end();
        for &[start, length, model_type, _, steps] in parts.models {
            self.append_name(start, length).word(MODEL_TYPES[model_type as usize]).number(steps).end();
        }
    }

    fn steps(&mut self, parts: &Parts) {
        self.append("steps").number(parts.steps.len() as u64).end();
        for &[kind, target, amount, side_start, side_length, line] in parts.steps {
            match kind {
                0 => {
                    let map = &parts.maps[target as usize];
                    self.append("end").number(line).name(map[0], map[1]);
                    if side_length > 0 {
                        self.name(side_start, side_length);
                    }
                }
                1 => {
                    let section = &parts.sections[target as usize];
                    self.append("section").number(line).name(section[0], section[1]);
                    match section[2] {
                        0 => self.number(amount),
                        _ => self.value(amount),
                    };
                }
                2 => _ = self.append("fork").number(line),
                _ => _ = self.append("endfork").number(line),
            }
            self.end();
        }
    }

    fn maps(&mut self, parts: &Parts) {
        self.append("maps").number(parts.maps.len() as u64).end();
        for &[start, length, _, _, _, _, pins] in parts.maps {
            self.append_name(start, length).number(pins).end();
        }
    }

    fn sections(&mut self, parts: &Parts) {
        self.append("sections").number(parts.sections.len() as u64).end();
        for &[start, length, method, conductors, ..] in parts.sections {
            self.append_name(start, length).word(METHODS[method as usize]).number(conductors).end();
        }
    }

    /// A value's line names the section and kind that its matrix belongs to.
    fn values(&mut self, parts: &Parts) {
        self.append("values").number(parts.values.len() as u64).end();
        let owners = owners(parts);
        for (&[_, _, first, count, _], owner) in parts.matrices.iter().zip(owners) {
            let Some((section, kind)) = owner else { continue };
            let &[start, length, ..] = &parts.sections[section];
            for &[row, column, word] in &parts.values[first as usize..][..count as usize] {
                self.append_name(start, length).word(KINDS[kind]).number(row).number(column).value(word).end();
            }
        }
    }
}

/// For each matrix the section and kind that refer to it.
fn owners(parts: &Parts) -> Vec<Option<(usize, usize)>> {
    let mut owners = vec![None; parts.matrices.len()];
    for (section, record) in parts.sections.iter().enumerate() {
        for (kind, &matrix) in record[4..].iter().enumerate() {
            if let Some(index) = matrix.checked_sub(1) {
                owners[index as usize] = Some((section, kind));
            }
        }
    }
    owners
}
