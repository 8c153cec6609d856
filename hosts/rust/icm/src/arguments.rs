// arguments.rs: what the command is asked to do, from the words of its command line.
// What is wrong with them is told in one line, which names the help to read.
use std::ffi::OsString;
use std::fmt;
use std::io::{self, IsTerminal};

use skumvari::Kind;

use crate::help::{self, Topic};
use crate::source::{Source, STANDARD};

#[derive(Debug, PartialEq, Eq)]
pub enum Request {
    /// This text is asked for.
    Help(String),
    Ask {
        verb: Verb,
        json: bool,
    },
}

#[derive(Debug, PartialEq, Eq)]
pub enum Verb {
    List(Source),
    Entry { source: Source, section: String, kind: Kind, row: usize, column: usize },
    Walk { source: Source, model: String },
    Check(Vec<Source>),
}

/// Why the command line is wrong.
#[derive(Debug, PartialEq, Eq)]
pub struct Wrong {
    what: String,
    topic: Option<&'static Topic>,
}

impl fmt::Display for Wrong {
    fn fmt(&self, out: &mut fmt::Formatter<'_>) -> fmt::Result {
        match self.topic {
            Some(topic) => write!(out, "{}; see icm {} --help", self.what, topic.name),
            None => write!(out, "{}; see icm --help", self.what),
        }
    }
}

/// What the options say.
#[derive(Default)]
struct Options {
    json: bool,
    help: bool,
    version: bool,
}

pub fn read(arguments: impl Iterator<Item = OsString>) -> Result<Request, Wrong> {
    let (options, words) = split(arguments)?;
    if options.version {
        return Ok(Request::Help(help::version()));
    }
    let mut words = words.into_iter().peekable();
    // `icm help list` is what people try before they know of `icm list --help`.
    let is_help = words.next_if(|word| word == "help").is_some() || options.help;
    let topic = match words.next() {
        None if is_help => return Ok(Request::Help(help::overview())),
        None => return Err(wrong(None, "nothing is asked for")),
        Some(word) => topic_of(&word.to_string_lossy())?,
    };
    if is_help {
        return Ok(Request::Help(topic.text()));
    }
    Ok(Request::Ask { verb: verb_of(topic, words.collect())?, json: options.json })
}

fn topic_of(word: &str) -> Result<&'static Topic, Wrong> {
    help::topic(word).ok_or_else(|| wrong(None, format!("there is no 'icm {word}'")))
}

/// The options, and the words that are none. A single `-` is none, and behind `--` nothing is.
fn split(arguments: impl Iterator<Item = OsString>) -> Result<(Options, Vec<OsString>), Wrong> {
    let mut options = Options::default();
    let mut words = Vec::new();
    let mut is_over = false;
    for argument in arguments {
        match argument.to_str() {
            Some(option) if !is_over && option.starts_with('-') && option != STANDARD => match option {
                "--" => is_over = true,
                "--json" => options.json = true,
                "--help" | "-h" => options.help = true,
                "--version" | "-V" => options.version = true,
                _ => return Err(wrong(None, format!("there is no option {option}"))),
            },
            _ => words.push(argument),
        }
    }
    Ok((options, words))
}

fn wrong(topic: Option<&'static Topic>, what: impl Into<String>) -> Wrong {
    Wrong { what: what.into(), topic }
}

fn verb_of(topic: &'static Topic, words: Vec<OsString>) -> Result<Verb, Wrong> {
    let usage = || wrong(Some(topic), format!("usage: {}", topic.usage));
    let text = |word: &OsString| word.to_string_lossy().into_owned();
    match (topic.name, &words[..]) {
        ("list", []) if io::stdin().is_terminal() => Err(usage()),
        ("list", []) => Ok(Verb::List(Source::Standard)),
        ("list", [file]) => Ok(Verb::List(Source::new(file.clone()))),
        ("entry", [file, section, kind, row, column]) => Ok(Verb::Entry {
            source: Source::new(file.clone()),
            section: text(section),
            kind: kind_of(topic, &text(kind))?,
            row: number_of(topic, "ROW", &text(row))?,
            column: number_of(topic, "COLUMN", &text(column))?,
        }),
        ("walk", [file, model]) => Ok(Verb::Walk { source: Source::new(file.clone()), model: text(model) }),
        ("check", [_, ..]) if words.iter().filter(|word| *word == STANDARD).count() > 1 => {
            Err(wrong(Some(topic), "standard input can be read once, and - stands twice"))
        }
        ("check", [_, ..]) => Ok(Verb::Check(words.into_iter().map(Source::new).collect())),
        _ => Err(usage()),
    }
}

fn kind_of(topic: &'static Topic, word: &str) -> Result<Kind, Wrong> {
    let found = Kind::ALL.into_iter().find(|kind| kind.to_string() == word);
    found.ok_or_else(|| wrong(Some(topic), format!("KIND is R, L, G or C, and not '{word}'")))
}

/// A whole number. One that is too great to hold is out of range too, and becomes the greatest.
fn number_of(topic: &'static Topic, name: &str, word: &str) -> Result<usize, Wrong> {
    if word.is_empty() || !word.bytes().all(|byte| byte.is_ascii_digit()) {
        return Err(wrong(Some(topic), format!("{name} is a whole number, and not '{word}'")));
    }
    Ok(word.parse().unwrap_or(usize::MAX))
}
