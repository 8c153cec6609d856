// answers.rs: what each verb asks of an accepted file, for people and for scripts.
// What people read of a whole file is the proved listing; a walk shows its lines of steps.
use std::fmt::Write;

use skumvari::{Amount, Form, Intake, Kind, Model, PinMap, QuestionError, Section, Step, Value, Walked};

use crate::desk::{Answer, Missing};
use crate::json::{Fields, Json};

/// What stands before the number of a section or a model, where it is not asked for by its name.
const BY_NUMBER: char = '#';

/// How many names are told where one is not there.
const NAMES_MOST: usize = 8;

// ---- list

pub fn listing(file: &Intake, json: bool) -> Answer {
    if !json {
        return Answer::Text(file.listing());
    }
    Answer::Json(vec![
        ("words", file.words_used().into()),
        ("models", file.models().map(model_fields).collect()),
        ("maps", file.maps().map(map_fields).collect()),
        ("sections", file.sections().map(section_fields).collect()),
    ])
}

fn model_fields(model: Model) -> Fields {
    vec![("name", model.name().into()), ("type", Json::told(model.model_type())), ("steps", steps(model))]
}

fn map_fields(map: PinMap) -> Fields {
    vec![
        ("name", map.name().into()),
        ("order", Json::told(map.order())),
        ("rows", map.rows().into()),
        ("columns", map.columns().into()),
        ("pins", map.pins().collect()),
    ]
}

fn section_fields(section: Section) -> Fields {
    let matrices = section.all_written().map(|written| -> Fields {
        let bandwidth = match written.form() {
            Form::Banded { bandwidth } => Some(bandwidth),
            _ => None,
        };
        let values = written.numbers().map(|number| -> Fields {
            let mut fields = vec![("row", number.row.into()), ("column", number.column.into())];
            fields.extend(value_fields(number.value));
            fields
        });
        vec![
            ("kind", Json::told(written.kind())),
            ("form", Json::told(written.form())),
            ("bandwidth", bandwidth.into()),
            ("line", written.line().into()),
            ("values", values.collect()),
        ]
    });
    vec![
        ("name", section.name().into()),
        ("method", Json::told(section.method())),
        ("conductors", section.conductors().into()),
        ("matrices", matrices.collect()),
    ]
}

/// A value exactly, as the listing prints it and as its word, and the double to draw it by, if there is one. A word may
/// be too great for the numbers of many a reader of JSON, so it is a string.
fn value_fields(value: Value) -> Fields {
    vec![
        ("value", Json::told(value)),
        ("word", Json::told(value.word())),
        ("double", value.to_f64().map_or(Json::Null, Json::Double)),
    ]
}

// ---- entry

pub fn entry(
    file: &Intake,
    section: &str,
    kind: Kind,
    row: usize,
    column: usize,
    json: bool,
) -> Result<Answer, Missing> {
    let by_number = || file.sections().nth(index_of(section)?);
    let found = file.section(section).or_else(by_number).ok_or_else(|| {
        let names = file.sections().map(Section::name);
        missing(QuestionError::NoSection(section.to_string()), &format!("the sections are {}", some_of(names)))
    })?;
    let value = found.entry(kind, row, column).map_err(|error| {
        let note = format!("rows and columns of section {} are 1 to {}", found.name(), found.conductors());
        Missing { refusal: error.refusal(), note }
    })?;
    if !json {
        return Ok(Answer::Text(format!("{value}\n")));
    }
    let mut fields = vec![
        ("section", found.name().into()),
        ("kind", Json::told(kind)),
        ("row", row.into()),
        ("column", column.into()),
    ];
    fields.extend(value_fields(value));
    Ok(Answer::Json(fields))
}

/// `#1` is the first, in the order of the listing.
fn index_of(word: &str) -> Option<usize> {
    word.strip_prefix(BY_NUMBER)?.parse::<usize>().ok()?.checked_sub(1)
}

fn missing(error: QuestionError, has: &str) -> Missing {
    Missing { refusal: error.refusal(), note: format!("{error}: {has}") }
}

fn some_of<'n>(names: impl ExactSizeIterator<Item = &'n str>) -> String {
    let more = names.len().saturating_sub(NAMES_MOST);
    let told = names.take(NAMES_MOST).collect::<Vec<_>>().join(", ");
    if more == 0 {
        told
    } else {
        format!("{told} and {more} more")
    }
}

// ---- walk

pub fn walk(file: &Intake, model: &str, json: bool) -> Result<Answer, Missing> {
    let by_number = || file.models().nth(index_of(model)?);
    let found = file.model(model).or_else(by_number).ok_or_else(|| {
        let names = file.models().map(Model::name);
        missing(QuestionError::NoModel(model.to_string()), &format!("the models are {}", some_of(names)))
    })?;
    if json {
        let fields =
            vec![("model", found.name().into()), ("type", Json::told(found.model_type())), ("steps", steps(found))];
        return Ok(Answer::Json(fields));
    }
    let mut text = String::new();
    for walked in found.walk() {
        let _ = writeln!(text, "{:indent$}{}", "", walked.step, indent = 2 * inside(&walked));
    }
    Ok(Answer::Text(text))
}

/// How many forks a step stands in. An endfork stands where its fork does.
fn inside(walked: &Walked) -> usize {
    match walked.step {
        Step::Endfork { .. } => walked.depth - 1,
        _ => walked.depth,
    }
}

fn steps(model: Model) -> Json {
    model.walk().map(step_fields).collect()
}

fn step_fields(walked: Walked) -> Fields {
    let (name, fields) = match walked.step {
        Step::End { map, side, .. } => ("end", vec![("map", map.name().into()), ("side", side.into())]),
        Step::Section { section, amount, .. } => {
            let amount = match amount {
                Amount::Mult(count) => ("mult", Json::Whole(count)),
                Amount::Len(length) => ("len", value_fields(length).into()),
            };
            ("section", vec![("section", section.name().into()), amount])
        }
        Step::Fork { .. } => ("fork", vec![]),
        Step::Endfork { .. } => ("endfork", vec![]),
    };
    let mut all = vec![("step", name.into()), ("line", walked.step.line().into()), ("depth", inside(&walked).into())];
    all.extend(fields);
    all
}

// ---- check

pub fn check(file: &Intake, json: bool) -> Answer {
    let (words, models, sections) = (file.words_used(), file.models().len(), file.sections().len());
    if json {
        return Answer::Json(vec![("words", words.into()), ("models", models.into()), ("sections", sections.into())]);
    }
    let counted = |count: usize, what: &str| format!("{count} {what}{}", if count == 1 { "" } else { "s" });
    Answer::Text([counted(words, "word"), counted(models, "model"), counted(sections, "section")].join(", "))
}
