//! SGR in a model that is not SLM_general: rule 29, at the SGR line wherever the type stands, and over the whole file.
//! The lines are counted by hand from the paper's example, whose head is line 11.

mod edit;
mod example;

use edit::{changed, check};
use plain::{intake, Answer};

/// The example's matrix as one that every type of model may use.
const DIAGONAL: &str = "{33-37=[Inductance Matrix] Diagonal_matrix;1 2}";

/// Changes that the decided readings of the request name.
const READINGS: &[(&str, &str)] = &[
    ("{11+=SGR 3:1}", "29 12"),
    ("{10+=SGR 3:1}", "29 11"),
    ("{11+=SGR x:1}", "13 12"),
    ("{11+=SGR 3:2}", "11 12"),
    ("{11=ICM_model_type SLM_quiescent;SGR 3:1}", "29 12"),
    ("{11+=SGR 3:1}{13=Model_pinmap X}", "29 12"),
    ("{11+=SGR 3:1}{9=B}", "20 9"),
];

/// All orders of a type and an SGR, with and without the third line that a head may have, and the line of the SGR.
const HEADS: &[(&str, u64)] = &[
    ("TYPE;SGR 3:1", 12),
    ("SGR 3:1;TYPE", 11),
    ("TYPE;SGR 3:1;Ref_impedance=50", 12),
    ("TYPE;Ref_impedance=50;SGR 3:1", 13),
    ("SGR 3:1;TYPE;Ref_impedance=50", 11),
    ("SGR 3:1;Ref_impedance=50;TYPE", 11),
    ("Ref_impedance=50;TYPE;SGR 3:1", 13),
    ("Ref_impedance=50;SGR 3:1;TYPE", 12),
    ("TYPE;SGR 1:1", 12),
    ("SGR 65535:1;TYPE", 11),
    ("TYPE;;| SGR 3:1;\tSGR\t000000003:1  | x", 14),
];

/// Breaks that are met reading forward, beside an SGR in an MLM model or on its line.
const FORWARD: &[(&str, &str)] = &[
    ("{11+=SGR}", "11 12"),
    ("{11+=SGR 3}", "11 12"),
    ("{11+=SGR 3:1 x}", "11 12"),
    ("{10+=SGR 3:01}", "11 11"),
    ("{11+=SGR x:2}", "11 12"),
    ("{11+=SGR :1}", "13 12"),
    ("{10+=SGR -3:1}", "13 11"),
    ("{11+=SGR 0:1}", "14 12"),
    ("{10+=SGR 65536:1}", "14 11"),
    ("{11+=sgr 3:1}", "12 12"),
    ("{11+=SGR=3:1}", "12 12"),
    ("{11+=SGR 3:1;SGR 3:1}", "12 13"),
    ("{10+=SGR 3:1}{11+=SGR 3:1}", "12 13"),
    ("{11+=SGR 3:1;SGR x:1}", "12 13"),
    ("{11+=SGR 3:1;SGR x:2}", "11 13"),
    ("{11=SGR 3:1}", "9 12"),
    ("{10+=SGR 3:1}{11=ICM_model_type SLM}", "11 12"),
    ("{11+=SGR 3:1;ICM_model_type SLM_general}", "12 13"),
    ("{11+=SGR 3:1}{12+=x}", "12 14"),
    ("{11+=SGR 3:1}{19=[Foo]}", "7 20"),
    ("{11+=SGR 3:1}{17=-}", "15 19"),
    ("{11+=SGR 3:1}{35=4.50nH}", "16 39"),
    ("{11+=SGR 3:1}{37=x}", "13 38"),
    ("{11+=SGR 3:1}{39=-}", "10 0"),
    ("{11+=SGR 3:1}{39+=\u{7f}}", "2 41"),
];

/// Breaks of other rules over the whole file, beside an SGR in an MLM model: the earlier line counts.
const WHOLE_FILE: &[(&str, &str)] = &[
    // Above the SGR: the list, the model's own opening, and maps.
    ("{9=A;B}{11+=SGR 3:1}", "20 10"),
    ("{9=A;A}{10+=SGR 3:1}", "19 10"),
    ("{9=-}{10+=SGR 3:1}", "20 9"),
    ("{9+=[ICM Pin Map] R;Pin_order Un_ordered;Pin_list;1;1}{11+=SGR 3:1}", "19 14"),
    // Below it: steps, maps and sections.
    ("{11+=SGR 3:1}{14=Section Mult=2 T}", "29 12"),
    ("{11+=SGR 3:1}{14=Section Len=2 S}", "29 12"),
    ("{11+=SGR 3:1}{18=Model_pinmap P}", "29 12"),
    ("{11+=SGR 3:1}{24=-}", "29 12"),
    ("{11+=SGR 3:1}{24=A1}", "29 12"),
    ("{10+=SGR 3:1}{11=ICM_model_type SLM_quiescent}", "29 11"),
    ("{7+=[ICM Pin Map] P;Pin_order Un_ordered;Pin_list;1;2}{11+=SGR 3:1}", "29 17"),
    (
        "{10+=SGR 3:1}{38+=[Begin ICM Section] S;[Derivation Method] Lumped;[Resistance Matrix] Diagonal_matrix;1;\
         [End ICM Section]}",
        "29 11",
    ),
    (
        "{10+=SGR 3:1}{38+=[Begin ICM Section] T;[Derivation Method] Lumped;[Resistance Matrix] Diagonal_matrix;1;\
         [End ICM Section]}",
        "29 11",
    ),
    // Where the model may have its SGR, those breaks are left.
    ("{11=ICM_model_type SLM_general;SGR 3:1}", "25 15"),
    ("{11=SGR 3:1;ICM_model_type SLM_general}{13=Model_pinmap X}", "21 14"),
];

/// Two models. `MODEL B x;y` is a model B with the head `x;y`, whose path is an end, a section and an end.
const TWO_MODELS: &[(&str, &str)] = &[
    // Only the second breaks 29.
    ("{9=A;B}{19+=MODEL B ICM_model_type MLM;SGR 3:1}", "29 23"),
    ("{9=A;B}{19+=MODEL B SGR 3:1;ICM_model_type SLM_quiescent}", "29 22"),
    ("{9=A;B}{11=ICM_model_type SLM_general;SGR 2:1}{19+=MODEL B ICM_model_type MLM;SGR 3:1}", "29 24"),
    ("{9=A;B}{13=Model_pinmap X}{19+=MODEL B ICM_model_type MLM;SGR 3:1}", "21 14"),
    ("{9=A;B}{16=Section Mult=1 T}{19+=MODEL B ICM_model_type MLM;SGR 3:1}", "23 17"),
    ("{19+=MODEL B ICM_model_type MLM;SGR 3:1}", "20 20"),
    ("{19+=MODEL A ICM_model_type MLM;SGR 3:1}", "19 20"),
    // The first does, and later lines break this rule again or others.
    ("{9=A;B}{11+=SGR 1:1}{19+=MODEL B ICM_model_type MLM}", "29 13"),
    ("{9=A;B}{11+=SGR 1:1}{19+=MODEL B ICM_model_type MLM;SGR 3:1}", "29 13"),
    ("{9=A;B}{10+=SGR 1:1}{19+=MODEL B SGR 3:1;ICM_model_type SLM_general}", "29 12"),
    ("{9=A;B}{11+=SGR 1:1}{14=Section Len=1 T}{18=Model_pinmap X}{19+=MODEL B ICM_model_type MLM}", "29 13"),
    ("{11+=SGR 1:1}{19+=MODEL B ICM_model_type MLM;SGR 3:1}", "29 12"),
    ("{11+=SGR 1:1}{19+=MODEL A ICM_model_type MLM;SGR 3:1}", "29 12"),
    // Neither does: what one model has is not the other's.
    ("{9=A;B}{19+=MODEL B SGR 3:1;ICM_model_type SLM_general}", "accepted"),
    ("{9=A;B}{11=ICM_model_type SLM_general;SGR 2:1}{19+=MODEL B ICM_model_type MLM}", "accepted"),
    ("{9=A;B}{11=SGR 2:1;ICM_model_type SLM_general}{19+=MODEL B ICM_model_type SLM_quiescent}", "accepted"),
    ("{9=A;B}{11=ICM_model_type SLM_general;SGR 2:1}{19+=MODEL B ICM_model_type SLM_general}", "9 24"),
    ("{9=A;B}{11+=SGR 1:1}{19+=MODEL B ICM_model_type SLM_general}", "9 24"),
];

/// The word SGR where it is no line of a model's head.
const OTHER_PLACES: &[(&str, &str)] = &[
    ("{11+=[ICM Model Description];SGR 3:1}", "accepted"),
    ("{18+=[ICM Model Description] SGR 3:1;SGR 3:1;SGR 3:1}", "accepted"),
    ("{11=ICM_model_type SLM_general;[ICM Model Description];SGR 3:1}", "9 12"),
    ("{4+=[Notes];SGR 3:1}", "accepted"),
    ("{7+=[ICM Family Description];SGR 3:1}", "accepted"),
    ("{9=A SGR 3:1}", "accepted"),
    ("{9-10=SGR;[Begin ICM Model] SGR}", "accepted"),
    ("{23=SGR 3:1}", "accepted"),
    ("{1=SGR 3:1;[Begin Header]}", "accepted"),
    ("{39+=SGR 3:1}", "accepted"),
    ("{11+=| SGR 3:1}", "accepted"),
    ("{11=ICM_model_type MLM | SGR 3:1}", "accepted"),
    ("{12+=SGR 3:1}", "12 13"),
    ("{18+=SGR 3:1}", "12 19"),
    ("{19+=SGR 3:1}", "12 20"),
];

/// Writes `MODEL name head` out, the last thing of its edit.
fn written_out(edits: &str) -> String {
    let Some((front, model)) = edits.split_once("MODEL ") else { return edits.to_owned() };
    let (model, back) = model.split_once('}').expect("the end of the edit");
    let (name, head) = model.split_once(' ').expect("a name and a head");
    let path = "[Tree Path Description];Model_pinmap P;Section Mult=1 S;Model_pinmap Q;[End ICM Model]";
    format!("{front}[Begin ICM Model] {name};{head};{path}}}{back}")
}

/// The example with this head, and a matrix that every type may use.
fn with_head(head: &str, model_type: &str) -> String {
    format!("{{11={}}}{DIAGONAL}", head.replace("TYPE", &format!("ICM_model_type {model_type}")))
}

#[test]
fn readings() {
    check(READINGS);
}

#[test]
fn only_slm_general_may_have_one() {
    for &(head, line) in HEADS {
        check(&[(with_head(head, "SLM_general"), "accepted")]);
        for model_type in ["SLM_quiescent", "MLM"] {
            check(&[(with_head(head, model_type), format!("29 {line}").as_str())]);
        }
    }
}

#[test]
fn without_one_only_slm_general_lacks_something() {
    for (model_type, expected) in [("SLM_general", "9 12"), ("SLM_quiescent", "accepted"), ("MLM", "accepted")] {
        check(&[(with_head("TYPE", model_type), expected)]);
    }
}

#[test]
fn what_is_read_forward_goes_first() {
    check(FORWARD);
}

#[test]
fn the_earliest_line_counts() {
    check(WHOLE_FILE);
}

#[test]
fn each_model_by_itself() {
    let cases: Vec<_> = TWO_MODELS.iter().map(|(edits, expected)| (written_out(edits) + DIAGONAL, *expected)).collect();
    check(&cases);
}

#[test]
fn the_word_at_other_places() {
    check(OTHER_PLACES);
}

/// The example needs 92 words, with an SGR or without.
#[test]
fn room_goes_first_and_the_table_is_zeroed() {
    for edits in ["{10+=SGR 3:1}", "{10+=SGR 3:1}{13=Model_pinmap X}"] {
        let text = changed(edits);
        for (words, expected) in [
            (0, Answer::Refused(18, 0)),
            (91, Answer::Refused(18, 0)),
            (92, Answer::Refused(29, 11)),
            (100, Answer::Refused(29, 11)),
        ] {
            let mut table = vec![7; words];
            assert_eq!(intake(text.as_bytes(), &mut table), expected, "{edits}, {words} words");
            assert!(table.iter().all(|&word| word == 0), "{edits}, {words} words");
        }
    }
}
