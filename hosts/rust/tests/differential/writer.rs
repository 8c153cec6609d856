// writer.rs: writes the lines of a generated file in all the ways that the paper allows: blanks, comments, ends of lines, cases, numbers.
// What it writes means the same whichever way is drawn, so what stands above it may think of lines and words alone.
use crate::random::Random;

/// The most characters of a line.
const LINE_MOST: usize = 120;

pub struct Writer<'r> {
    pub random: &'r mut Random,
    text: Vec<u8>,
    /// How often in a hundred times a line is decorated.
    noise: usize,
    /// How often in a hundred times a line ends in CR LF.
    carriage_returns: usize,
}

impl<'r> Writer<'r> {
    pub fn new(random: &'r mut Random) -> Writer<'r> {
        let noise = *random.pick(&[0, 5, 15, 50]);
        let carriage_returns = *random.pick(&[0, 0, 50, 100]);
        Writer { random, text: Vec::new(), noise, carriage_returns }
    }

    pub fn finish(self) -> Vec<u8> {
        self.text
    }

    /// A line exactly as it is given, but for its end.
    pub fn bare(&mut self, line: &str) {
        self.text.extend_from_slice(line.as_bytes());
        let end: &[u8] = if self.random.percent(self.carriage_returns) { b"\r\n" } else { b"\n" };
        self.text.extend_from_slice(end);
    }

    /// A line, perhaps with a comment behind it and empty lines above it. Decoration that would make it too long is left out.
    fn decorated(&mut self, line: &str) {
        while self.random.percent(self.noise / 2) {
            let empty = self.empty_line();
            self.bare(&empty);
        }
        let mut whole = line.to_string();
        if self.random.percent(self.noise) {
            whole.push_str(self.blanks());
        }
        if self.random.percent(self.noise) {
            whole.push_str(&self.comment(line.len()));
        }
        self.bare(if whole.len() > LINE_MOST { line } else { &whole });
    }

    fn empty_line(&mut self) -> String {
        let comments = ["", "", " ", "\t ", "|", "| [End]", " \t| Section Mult=1 x", "|| = [ ]"];
        self.random.pick(&comments).to_string()
    }

    /// Sometimes one that fills the line to its very end.
    fn comment(&mut self, used: usize) -> String {
        match self.random.below(4) {
            0 => format!("|{}", "c".repeat((LINE_MOST - 1).saturating_sub(used))),
            1 => "|".to_string(),
            2 => "| [Row] 1".to_string(),
            _ => " |#%&*~".to_string(),
        }
    }

    fn blanks(&mut self) -> &'static str {
        *self.random.pick(&[" ", " ", "\t", "  ", " \t ", "   "])
    }

    fn gap(&mut self) -> &'static str {
        if self.random.percent(self.noise) {
            self.blanks()
        } else {
            " "
        }
    }

    /// Words with blanks between them, perhaps with some before the first.
    pub fn words(&mut self, words: &[&str]) {
        let lead = if self.random.percent(self.noise) { self.blanks() } else { "" };
        let mut line = lead.to_string();
        for (place, word) in words.iter().enumerate() {
            if place > 0 {
                line.push_str(self.gap());
            }
            line.push_str(word);
        }
        if line.len() > LINE_MOST {
            line = words.join(" ");
        }
        self.decorated(&line);
    }

    /// A keyword in some spelling, and its argument if there is one.
    pub fn keyword(&mut self, keyword: &str, argument: &str) {
        let spelled: String = keyword.chars().map(|letter| self.spelled(letter)).collect();
        let gap = if argument.is_empty() { "" } else { self.gap() };
        self.decorated(&format!("[{spelled}]{gap}{argument}"));
    }

    fn spelled(&mut self, letter: char) -> char {
        let odd = self.random.percent(self.noise / 2);
        match letter {
            ' ' if odd => '_',
            _ if odd && letter.is_ascii_lowercase() => letter.to_ascii_uppercase(),
            _ if odd => letter.to_ascii_lowercase(),
            _ => letter,
        }
    }

    /// An equals sign with any blanks about it.
    pub fn equals(&mut self) -> String {
        let signs = ["=", "=", " = ", "= ", " =", "\t=  ", "  =\t"];
        self.random.pick(&signs).to_string()
    }

    /// An integer, perhaps with zeros in front.
    pub fn integer(&mut self, value: usize) -> String {
        if self.random.percent(self.noise / 2) {
            format!("{value:0width$}", width = self.random.between(1, 9))
        } else {
            value.to_string()
        }
    }

    /// Numbers over as many lines as it takes, and sometimes more.
    pub fn numbers(&mut self, numbers: &[String]) {
        let mut rest = numbers;
        while !rest.is_empty() {
            let wanted = self.random.between(1, 12);
            let mut length = 0;
            let fitting = rest.iter().take(wanted).take_while(|number| {
                length += number.len() + 1;
                length <= LINE_MOST
            });
            let (front, back) = rest.split_at(fitting.count());
            let words: Vec<&str> = front.iter().map(String::as_str).collect();
            self.words(&words);
            rest = back;
        }
    }
}

/// A number that is in bounds, in any spelling.
pub fn number(random: &mut Random) -> String {
    let sign = *random.pick(&["", "", "", "+", "-"]);
    match random.below(12) {
        0 => format!("{sign}{}", random.pick(&["0", "0.0", ".0", "0.", "0e500", "0e-99999999999999999999T", "000pF"])),
        1 => format!("{sign}{}", random.pick(&EDGES)),
        _ => format!("{sign}{}", positive(random)),
    }
}

/// Numbers at the very bounds.
const EDGES: [&str; 12] = [
    "1e60",
    "1e-60",
    "999999999999999",
    "999999999999999e60",
    "0.1e61",
    "1e61p",
    "10000000000000000",
    "1e+000000000000000000060",
    "1000000000000000e45",
    "0.000000000000000000000000000000000000000000000000000000000001",
    "2e-45f",
    "00000000000000000000000000123456789012345",
];

/// A number above zero, without a sign.
pub fn positive(random: &mut Random) -> String {
    let most = *random.pick(&[1, 2, 3, 8, 15]);
    let length = random.between(1, most);
    let mut digits: String = (0..length).map(|_| (b'0' + random.below(10) as u8) as char).collect();
    // A digit that is not zero keeps the whole above zero.
    let place = random.below(length);
    digits.replace_range(place..place + 1, *random.pick(&["1", "5", "9"]));
    if random.percent(50) {
        digits.insert(random.between(0, length), '.');
    }
    let exponent = match random.below(3) {
        0 => format!(
            "{}{}{}",
            random.pick(&["e", "E"]),
            random.pick(&["", "+", "-"]),
            random.pick(&["0", "1", "3", "12", "020", "9"])
        ),
        _ => String::new(),
    };
    let units = [
        "", "", "", "nH", "pF", "T", "G", "M", "k", "m", "u", "n", "p", "f", "H", "F", "e", "E", "ek", "K", "Ohm",
        "mOhm", "fF",
    ];
    format!("{digits}{exponent}{}", random.pick(&units))
}
