// proved.rs: the proved intake as the benchmark calls it, through the host crate as every user does.
// Its answer has the plain reading's type, so that the two can be compared.
use plain::Answer;
use skumvari::raw;

pub fn intake(text: &[u8], table: &mut [u64]) -> Answer {
    match raw::intake(text, table) {
        Ok(used) => Answer::Accepted(used),
        Err(refusal) => Answer::Refused(refusal.number, refusal.line),
    }
}

/// Whether an answer of the proved intake is the plain one.
pub fn same(proved: Answer, plain: Answer) -> bool {
    proved == plain
}

/// A length of table that every text fits.
pub fn table_words() -> usize {
    raw::table_words()
}
