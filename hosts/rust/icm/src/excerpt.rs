// excerpt.rs: the line of a text that a refusal blames, as it is shown to people, and which columns of it are marked.
// A text may hold any bytes: what a terminal cannot show, or would obey, is shown as its number.
use std::ops::Range;

use skumvari::Refusal;

/// How many bytes of a line are shown, and how many of them before the mark where that stands far to the right; and
/// behind which column nothing is shown, since a byte may take several.
const SHOWN_MOST: usize = 120;
const SHOWN_BEFORE: usize = 40;
const COLUMNS_MOST: usize = 200;

/// How far apart the columns are that a TAB leads to.
const TAB_STOP: usize = 8;

/// The characters that a line may have.
const LINE_MOST: usize = 120;

#[derive(Debug, PartialEq, Eq)]
pub struct Excerpt {
    pub shown: String,
    /// The columns of what is shown that are marked; at least one.
    pub mark: Range<usize>,
}

impl Excerpt {
    /// Nothing where no line is to blame.
    pub fn of(text: &[u8], refusal: &Refusal) -> Option<Excerpt> {
        let line = blamed(text, refusal)?;
        Some(Excerpt::around(line, to_mark(line, refusal)))
    }

    /// The line, or what stands about the mark where it is long.
    fn around(line: &[u8], mark: Range<usize>) -> Excerpt {
        let start = if mark.start < SHOWN_MOST / 2 { 0 } else { mark.start - SHOWN_BEFORE };
        let mut shown = String::from(if start == 0 { "" } else { "..." });
        // where each byte that is shown begins, and where the last one ends
        let mut columns = vec![shown.len()];
        for byte in line[start..].iter().take(SHOWN_MOST) {
            if shown.len() < COLUMNS_MOST {
                show(*byte, &mut shown);
                columns.push(shown.len());
            }
        }
        let end = start + columns.len() - 1;
        let column = |place: usize| columns[place.clamp(start, end) - start];
        let first = column(mark.start);
        let mark = first..column(mark.end).max(first + 1);
        if end < line.len() {
            shown.push_str("...");
        }
        Excerpt { shown, mark }
    }
}

/// The line that a refusal blames, without its line end.
pub fn blamed<'t>(text: &'t [u8], refusal: &Refusal) -> Option<&'t [u8]> {
    let above = usize::try_from(refusal.line).ok()?.checked_sub(1)?;
    let line = text.split_inclusive(|byte| *byte == b'\n').nth(above)?;
    let Some(line) = line.strip_suffix(b"\n") else { return Some(line) };
    Some(line.strip_suffix(b"\r").unwrap_or(line))
}

/// The bytes of a line that a refusal is about. Mostly that is its content, which is what stands before a comment.
fn to_mark(line: &[u8], refusal: &Refusal) -> Range<usize> {
    match refusal.name {
        "BYTE" => {
            let is_bad = |byte: &u8| !matches!(byte, b' '..=b'~' | b'\t');
            let start = line.iter().position(is_bad).unwrap_or(0);
            start..start + line[start..].iter().take_while(|byte| is_bad(byte)).count()
        }
        "LONG" => LINE_MOST.min(line.len())..line.len(),
        "UNENDED" => trimmed(line, line.len()),
        _ => {
            let content = trimmed(line, line.iter().position(|byte| *byte == b'|').unwrap_or(line.len()));
            if content.is_empty() {
                trimmed(line, line.len())
            } else {
                content
            }
        }
    }
}

/// The front of a line without the blanks about it.
fn trimmed(line: &[u8], length: usize) -> Range<usize> {
    let is_word = |byte: &u8| !matches!(byte, b' ' | b'\t');
    let front = &line[..length];
    match (front.iter().position(is_word), front.iter().rposition(is_word)) {
        (Some(first), Some(last)) => first..last + 1,
        _ => 0..0,
    }
}

fn show(byte: u8, shown: &mut String) {
    match byte {
        b' '..=b'~' => shown.push(char::from(byte)),
        b'\t' => shown.push_str(&" ".repeat(TAB_STOP - shown.len() % TAB_STOP)),
        _ => shown.push_str(&format!("\\x{byte:02X}")),
    }
}

#[cfg(test)]
mod tests {
    use super::*;

    /// What is shown of a text that the intake refuses, with the mark below it.
    fn drawn(text: &[u8]) -> (String, String) {
        let refusal = skumvari::Intake::read(text).expect_err("a text that is refused");
        let Excerpt { shown, mark } = Excerpt::of(text, &refusal).expect("a line that is to blame");
        (shown, " ".repeat(mark.start) + &"^".repeat(mark.len()))
    }

    fn header(line: &str) -> Vec<u8> {
        format!("[Begin Header]\n{line}\n").into_bytes()
    }

    fn assert_drawn(text: &[u8], shown: &str, mark: &str) {
        assert_eq!(drawn(text), (shown.to_string(), mark.to_string()));
    }

    #[test]
    fn the_content_is_marked_and_no_comment() {
        assert_drawn(&header("  x y \t | why"), "  x y    | why", "  ^^^");
        assert_drawn(&header("[Foo]"), "[Foo]", "^^^^^");
        assert_drawn(&header("[Foo]\r"), "[Foo]", "^^^^^");
    }

    #[test]
    fn tabs_lead_to_their_columns() {
        assert_drawn(&header("\tx\ty"), "        x       y", "        ^^^^^^^^^");
        assert_drawn(&header("1234567\tx"), "1234567 x", "^^^^^^^^^");
    }

    #[test]
    fn bytes_that_may_not_stand_are_shown_by_number_and_marked() {
        assert_drawn(
            "[Begin Header] \u{e9}t\u{e9}\n".as_bytes(),
            "[Begin Header] \\xC3\\xA9t\\xC3\\xA9",
            &format!("{:15}^^^^^^^^", ""),
        );
        assert_drawn(b"a\x1b[31mb\n", "a\\x1B[31mb", " ^^^^");
        assert_drawn(b"a\rb\n", "a\\x0Db", " ^^^^");
        assert_drawn(b"a\r", "a\\x0D", " ^^^^");
    }

    #[test]
    fn a_last_line_without_its_end_is_marked_whole() {
        assert_drawn(b"\n| all comment ", "| all comment ", "^^^^^^^^^^^^^");
        assert_drawn(b"  ", "  ", "^");
    }

    #[test]
    fn of_long_lines_what_is_about_the_mark_is_shown() {
        let long = |length: usize| format!("{}\n", "0123456789".repeat(20)[..length - 1].to_string() + "X");
        assert_drawn(long(121).as_bytes(), &format!("...{}X", "0123456789".repeat(4)), &format!("{:43}^", ""));
        let (shown, mark) = drawn(("y".repeat(500_000) + "\n").as_bytes());
        assert_eq!(shown, format!("...{}...", "y".repeat(120)));
        assert_eq!(mark, format!("{:43}{}", "", "^".repeat(80)));
        let binary = [b"y".repeat(70), vec![0; 500_000]].concat();
        let (shown, mark) = drawn(&binary);
        assert_eq!(shown, format!("...{}{}...", "y".repeat(40), "\\x00".repeat(40)));
        assert_eq!(mark, format!("{:43}{}", "", "^".repeat(160)));
    }

    #[test]
    fn without_a_line_there_is_nothing_to_show() {
        let refusal = skumvari::Intake::read("").expect_err("an empty text");
        assert_eq!((refusal.line, Excerpt::of(b"", &refusal)), (0, None));
    }
}
