// reading.rs: what the test files ask of a reading, and the two readings that are asked.

/// The words of the listing program's table, and the bytes of the longest text that it takes.
pub const LISTING_WORDS: usize = 8192;
pub const LISTING_BYTES: usize = 65536;

/// Number and line of a refused intake.
pub type Refused = (u64, u64);

pub trait Reading {
    fn intake(text: &[u8], table: &mut [u64]) -> Result<usize, Refused>;
    fn sound(text: &[u8], table: &[u64]) -> bool;
    /// Of an accepted text and its table.
    fn listing(text: &[u8], table: &[u64]) -> String;
    /// The value word of a number, or its number of refusal.
    fn number(word: &str) -> Result<u64, u64>;
    fn entry(text: &[u8], table: &[u64], place: [u64; 4]) -> Result<u64, u64>;
    /// Done, the words of the step, and the place handed back.
    fn step(text: &[u8], table: &[u64], place: [u64; 3]) -> Result<[u64; 10], u64>;
    /// The double of a value word, and the pair of a frequency and a value.
    fn double(word: u64) -> Option<f64>;
    fn pair(frequency: u64, value: u64) -> Option<(f64, f64)>;

    /// The intake's answer and the table it leaves, which held other words before: those past the words used are zero.
    fn take_in(text: &[u8], words: usize) -> (Result<usize, Refused>, Vec<u64>) {
        let mut table = vec![u64::MAX; words];
        let answer = Self::intake(text, &mut table);
        let used = answer.unwrap_or(0);
        assert!(table[used..] == vec![0; words - used], "words that are not used are left as they were");
        (answer, table)
    }

    /// What the listing program prints.
    fn list(text: &[u8]) -> String {
        if text.len() > LISTING_BYTES {
            return "toolong\n".to_owned();
        }
        match Self::take_in(text, LISTING_WORDS) {
            (Ok(_), table) => Self::listing(text, &table),
            (refused, _) => format!("{}\n", spelled(refused)),
        }
    }
}

pub fn spelled(answer: Result<usize, Refused>) -> String {
    match answer {
        Ok(used) => format!("accepted {used}"),
        Err((number, line)) => format!("refused {number} {line}"),
    }
}

pub mod proved {
    use skumvari::raw::{self, Place};
    use skumvari::{Intake, Kind};

    pub struct Reader;

    impl super::Reading for Reader {
        fn intake(text: &[u8], table: &mut [u64]) -> Result<usize, super::Refused> {
            raw::intake(text, table).map_err(|refusal| (refusal.number, refusal.line))
        }

        fn sound(text: &[u8], table: &[u64]) -> bool {
            raw::sound(text, table)
        }

        fn listing(text: &[u8], _: &[u64]) -> String {
            Intake::read(text).expect("accepted").listing()
        }

        /// As a number of the paper's example, since the archive reads whole files.
        fn number(word: &str) -> Result<u64, u64> {
            let file = Intake::read(include_str!("../paper.icm").replace("4.50nH", word));
            let file = file.map_err(|refusal| refusal.number)?;
            Ok(file.entry("S", Kind::Inductance, 1, 1).expect("S L 1 1").word())
        }

        fn entry(text: &[u8], table: &[u64], [section, kind, row, column]: [u64; 4]) -> Result<u64, u64> {
            let entry = raw::entry(text, table, section, kind, row, column);
            entry.map(|value| value.word()).map_err(|refusal| refusal.number)
        }

        fn step(text: &[u8], table: &[u64], [model, step, depth]: [u64; 3]) -> Result<[u64; 10], u64> {
            let place = Place { model, step, depth };
            let walked = place.step(text, table).map_err(|refusal| refusal.number)?;
            // of a path that is done this library tells nothing more, since the place is the one that was asked
            let Some((words, next)) = walked else { return Ok([1, 0, 0, 0, 0, 0, 0, model, step, depth]) };
            Ok([
                0,
                words.kind,
                words.target,
                words.amount,
                words.side_start,
                words.side_length,
                words.line,
                next.model,
                next.step,
                next.depth,
            ])
        }

        fn double(word: u64) -> Option<f64> {
            raw::double(word)
        }

        fn pair(frequency: u64, value: u64) -> Option<(f64, f64)> {
            raw::pair(frequency, value)
        }
    }
}

pub mod plain {
    use ::plain::{double_of, entry, intake, listing, pair_of, sound, step, value, Answer};

    pub struct Reader;

    impl super::Reading for Reader {
        fn intake(text: &[u8], table: &mut [u64]) -> Result<usize, super::Refused> {
            match intake(text, table) {
                Answer::Accepted(used) => Ok(used),
                Answer::Refused(number, line) => Err((number, line)),
            }
        }

        fn sound(text: &[u8], table: &[u64]) -> bool {
            sound(text, table)
        }

        fn listing(text: &[u8], table: &[u64]) -> String {
            String::from_utf8(listing(text, table)).expect("bytes of ASCII")
        }

        fn number(word: &str) -> Result<u64, u64> {
            value(word.as_bytes())
        }

        fn entry(text: &[u8], table: &[u64], [section, kind, row, column]: [u64; 4]) -> Result<u64, u64> {
            entry(text, table, section, kind, row, column)
        }

        fn step(text: &[u8], table: &[u64], [model, at, depth]: [u64; 3]) -> Result<[u64; 10], u64> {
            let walked = step(text, table, model, at, depth)?;
            Ok([
                walked.done.into(),
                walked.kind,
                walked.target,
                walked.amount,
                walked.side_start,
                walked.side_length,
                walked.line,
                walked.next.model,
                walked.next.step,
                walked.next.depth,
            ])
        }

        fn double(word: u64) -> Option<f64> {
            double_of(word)
        }

        fn pair(frequency: u64, value: u64) -> Option<(f64, f64)> {
            pair_of(frequency, value)
        }
    }
}
