// paper.rs: what the library tells of the paper's example, through the types that a user meets.
// The text stands in paper.icm and the listing in the paper's part "Listing".
use skumvari::{Amount, Error, Form, Intake, Kind, Method, ModelType, PinOrder, QuestionError, Step, Value};

const LISTING: &str = "accepted 92
models 1
A MLM 6
steps 6
end 13 P
section 14 S 2
fork 15
section 16 S 1
endfork 17
end 18 Q
maps 2
P 2
Q 2
sections 1
S Lumped 2
values 3
S L 1 1 45e-10
S L 1 2 8e-10
S L 2 2 45e-10
";

fn paper() -> Intake {
    Intake::read(include_str!("paper.icm")).expect("the paper's example is accepted")
}

/// The example with all of one piece of its text replaced by another.
fn edited(from: &str, to: &str) -> String {
    let text = include_str!("paper.icm");
    assert!(text.contains(from), "{from}");
    text.replace(from, to)
}

#[test]
fn the_listing_is_the_papers() {
    assert_eq!(paper().listing(), LISTING);
}

#[test]
fn text_and_table_are_kept() {
    let file = paper();
    assert_eq!(file.text(), include_bytes!("paper.icm"));
    assert_eq!(file.words_used(), 92);
    assert_eq!(file.table().len(), 92);
    assert_eq!(format!("{file:?}"), "Intake { bytes: 547, words: 92 }");
}

#[test]
fn names_and_choices() {
    let file = paper();
    let model = file.model("A").expect("model A");
    assert_eq!((model.name(), model.model_type()), ("A", ModelType::Mlm));
    let map = file.map("P").expect("map P");
    assert_eq!((map.name(), map.order(), map.rows(), map.columns()), ("P", PinOrder::UnOrdered, 0, 0));
    assert_eq!(map.pins().collect::<Vec<_>>(), ["A1", "A2"]);
    assert_eq!(file.maps().flat_map(|map| map.pins()).collect::<Vec<_>>(), ["A1", "A2", "1", "2"]);
    let section = file.section("S").expect("section S");
    assert_eq!((section.name(), section.method(), section.conductors()), ("S", Method::Lumped, 2));
    assert!(file.model("B").is_none() && file.map("A").is_none() && file.section("s").is_none());
}

#[test]
fn steps_and_walk_tell_the_same() {
    let file = paper();
    let steps: Vec<Step> = file.model("A").expect("model A").steps().collect();
    let walked: Vec<_> = file.walk("A").expect("model A").collect();
    assert_eq!(walked.iter().map(|walked| walked.step).collect::<Vec<_>>(), steps);
    assert_eq!(walked.iter().map(|walked| walked.depth).collect::<Vec<_>>(), [0, 0, 0, 1, 1, 0]);
    assert_eq!(steps.iter().map(|step| step.line()).collect::<Vec<_>>(), [13, 14, 15, 16, 17, 18]);
    let names: Vec<_> = steps.iter().map(|step| step.name()).collect();
    assert_eq!(names, [Some("P"), Some("S"), None, Some("S"), None, Some("Q")]);
    assert!(matches!(steps[1], Step::Section { amount: Amount::Mult(2), .. }));
    assert_eq!(file.walk("B").err(), Some(QuestionError::NoModel("B".to_string())));
}

#[test]
fn a_walk_stays_at_its_end() {
    let file = paper();
    let mut walk = file.walk("A").expect("model A");
    assert_eq!(walk.by_ref().count(), 6);
    assert_eq!((walk.next(), walk.next()), (None, None));
    assert_eq!(walk.place().step, 6);
}

#[test]
fn entries_by_address() {
    let file = paper();
    let entry = |row, column| file.entry("S", Kind::Inductance, row, column).map(|value| value.to_string());
    assert_eq!(entry(1, 1).as_deref(), Ok("45e-10"));
    assert_eq!(entry(1, 2).as_deref(), Ok("8e-10"));
    assert_eq!(entry(2, 1).as_deref(), Ok("8e-10"));
    assert_eq!(file.entry("S", Kind::Capacitance, 1, 1), Ok(Value::ZERO));
    let value = file.entry("S", Kind::Inductance, 1, 1).expect("S L 1 1");
    assert_eq!((value.negative(), value.size(), value.exponent(), value.to_f64()), (false, 45, -10, Some(4.5e-9)));
}

/// "the first scaling by T G M k m u n p f (12, 9, 6, 3, -3, -6, -9, -12, -15), any other letter by nothing", for numbers of few bytes and of many.
#[test]
fn each_letter_scales() {
    let powers = [('T', 12), ('G', 9), ('M', 6), ('k', 3), ('m', -3), ('u', -6), ('n', -9), ('p', -12), ('f', -15)];
    for letter in ('A'..='Z').chain('a'..='z') {
        let power = powers.iter().find(|scaling| scaling.0 == letter).map_or(0, |scaling| scaling.1);
        for zeros in [0, 40] {
            let word = format!("{}8{letter}H", "0".repeat(zeros));
            let file = Intake::read(edited("4.50nH", &word)).expect("accepted");
            let value = file.entry("S", Kind::Inductance, 1, 1).expect("S L 1 1");
            assert_eq!((value.size(), value.exponent()), (8, power), "{word}");
        }
    }
}

#[test]
fn entries_that_are_not_there() {
    let file = paper();
    for (row, column) in [(0, 1), (1, 0), (3, 1), (1, 3), (usize::MAX, 1)] {
        let error = file.entry("S", Kind::Inductance, row, column).expect_err("out of range");
        assert_eq!(error.to_string(), "refused 31 NOSUCH: section, kind, row, column or walk place out of range");
    }
    let error = file.entry("T", Kind::Inductance, 1, 1).expect_err("no section T");
    assert_eq!(error.to_string(), "no section named T");
}

#[test]
fn a_whole_matrix() {
    let file = paper();
    let section = file.section("S").expect("section S");
    let matrix = section.matrix(Kind::Inductance);
    assert_eq!(format!("{:?}", matrix.rows().collect::<Vec<_>>()), "[[45e-10, 8e-10], [8e-10, 45e-10]]");
    for row in 0..4 {
        for column in 0..4 {
            assert_eq!(matrix.get(row, column), file.entry("S", Kind::Inductance, row, column).ok());
        }
    }
    assert_eq!(section.matrix(Kind::Resistance).values(), [Value::ZERO; 4]);
}

#[test]
fn a_matrix_as_written() {
    let file = paper();
    let section = file.section("S").expect("section S");
    let written = section.written(Kind::Inductance).expect("L is given");
    assert_eq!((written.form(), written.line(), written.numbers().len()), (Form::Full, 33, 3));
    assert!(section.written(Kind::Resistance).is_none());
    assert_eq!(section.all_written().collect::<Vec<_>>(), [written]);
}

#[test]
fn sides_lengths_and_forms() {
    let text = edited("Model_pinmap Q", "Model_pinmap Q\nSide left")
        .replace("Mult=2", "Len=25m")
        .replace("Mult=1", "Len=1")
        .replace("Lumped", "Distributed")
        .replace(
            "[End ICM Section]",
            "[Capacitance Matrix] Banded_matrix\n[Bandwidth] 1\n[Row] 1\n1p -2f\n[Row] 2\n0\n[End ICM Section]",
        );
    let file = Intake::read(text).expect("the edited example is accepted");
    let steps: Vec<Step> = file.model("A").expect("model A").steps().collect();
    assert_eq!(steps[1].to_string(), "section 14 S 25e-3");
    assert_eq!(steps[5].to_string(), "end 18 Q left");
    assert_eq!(file.walk("A").expect("model A").map(|walked| walked.step).collect::<Vec<_>>(), steps);
    let section = file.section("S").expect("section S");
    assert_eq!(section.written(Kind::Capacitance).expect("C is given").form(), Form::Banded { bandwidth: 1 });
    assert_eq!(format!("{:?}", section.matrix(Kind::Capacitance).values()), "[1e-12, -2e-15, -2e-15, 0e0]");
}

#[test]
fn refusals_tell_number_name_and_line() {
    for (text, told) in [
        (String::new(), "refused 5 HEADER: no [Begin Header] line"),
        ("x".to_string(), "refused 4 UNENDED: last line has no LF, line 1"),
        ("\n".repeat(1_048_577), "refused 1 SIZE: text over 1,048,576 bytes"),
        (edited("4.5nH\n", "1e99\n"), "refused 14 RANGE: number or integer out of bounds, line 37"),
        (edited("Mult=1 S", "Mult=1 T"), "refused 23 NOSECTION: no such section, line 16"),
        (edited("MLM\n", "MLM\nSGR 3:1\n"), "refused 29 SGR: SGR in a model that is not SLM_general, line 12"),
        (
            edited("A2", "A\u{e9}"),
            "refused 2 BYTE: byte other than 0x20 to 0x7E, TAB, LF, or CR right before LF, line 24",
        ),
    ] {
        let refusal = Intake::read(text).expect_err(told);
        assert_eq!(refusal.to_string(), told);
    }
}

#[test]
fn files_by_name() {
    let folder = env!("CARGO_MANIFEST_DIR");
    let file = Intake::open(format!("{folder}/tests/paper.icm")).expect("the paper's example is accepted");
    assert_eq!(file.words_used(), 92);
    assert!(matches!(Intake::open(format!("{folder}/tests/none.icm")), Err(Error::Io(_))));
    let refused = Intake::open(format!("{folder}/tests/paper.rs"));
    assert!(matches!(refused, Err(Error::Refused(refusal)) if refusal.number != 0));
}
