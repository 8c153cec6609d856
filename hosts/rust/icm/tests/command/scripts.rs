// scripts.rs: the command with --json: one object for each file on standard output, whatever comes of it.
use crate::json::Json;
use crate::support::{folder, icm, icm_reading, path, with_line, write, EXAMPLE, LISTING};

/// The object that a run prints, which tells nothing else. The statuses are those without --json.
fn object(ran: crate::support::Ran, status: i32) -> Json {
    assert_eq!((ran.status, ran.errors.as_str()), (status, ""));
    assert_eq!(ran.results.matches('\n').count(), 1, "{}", ran.results);
    Json::read(&ran.results)
}

fn text(text: &str) -> Json {
    Json::Text(text.to_string())
}

fn number(number: &str) -> Json {
    Json::Number(number.to_string())
}

#[test]
fn entry() {
    let folder = folder("json-entry");
    let entry = object(icm(&folder, &["entry", "--json", "t.icm", "S", "L", "2", "1"]), 0);
    let wanted = [
        ("file", text("t.icm")),
        ("accepted", Json::Bool(true)),
        ("section", text("S")),
        ("kind", text("L")),
        ("row", number("2")),
        ("column", number("1")),
        ("value", text("8e-10")),
        ("word", text("2156")),
        ("double", number("8e-10")),
    ];
    assert_eq!(entry, Json::Object(wanted.map(|(name, value)| (name.to_string(), value)).to_vec()));
    let zero = object(icm_reading(&folder, &["entry", "--json", "-", "#1", "R", "1", "1"], EXAMPLE.into()), 0);
    assert_eq!((zero.get("file"), zero.get("section")), (&text("-"), &text("S")));
    assert_eq!((zero.get("value"), zero.get("word"), zero.get("double")), (&text("0e0"), &text("128"), &number("0e0")));
}

/// A word of 15 digits is above two to the 53, and so is told as a string; outside the span there is no double.
#[test]
fn words_and_doubles() {
    let folder = folder("json-words");
    for (written, value, word, double) in [
        ("999999999999999", "999999999999999e0", "255999999999999872", number("9.99999999999999e14")),
        ("-1e22", "-1e22", "429", number("-1e22")),
        ("1e23", "1e23", "430", Json::Null),
    ] {
        write(&folder, "x.icm", with_line(37, written));
        let entry = object(icm(&folder, &["entry", "--json", "x.icm", "S", "L", "2", "2"]), 0);
        assert_eq!((entry.get("value"), entry.get("word")), (&text(value), &text(word)));
        assert_eq!(entry.get("double"), &double);
    }
}

#[test]
fn walk() {
    let folder = folder("json-walk");
    let walk = object(icm(&folder, &["walk", "--json", "t.icm", "A"]), 0);
    assert_eq!(walk.names(), ["file", "accepted", "model", "type", "steps"]);
    assert_eq!((walk.get("model"), walk.get("type")), (&text("A"), &text("MLM")));
    let wanted = "[{\"step\":\"end\",\"line\":13,\"depth\":0,\"map\":\"P\",\"side\":null},\
                  {\"step\":\"section\",\"line\":14,\"depth\":0,\"section\":\"S\",\"mult\":2},\
                  {\"step\":\"fork\",\"line\":15,\"depth\":0},\
                  {\"step\":\"section\",\"line\":16,\"depth\":1,\"section\":\"S\",\"mult\":1},\
                  {\"step\":\"endfork\",\"line\":17,\"depth\":0},\
                  {\"step\":\"end\",\"line\":18,\"depth\":0,\"map\":\"Q\",\"side\":null}]";
    assert_eq!(walk.get("steps"), &Json::read(wanted));
}

#[test]
fn list() {
    let folder = folder("json-list");
    let list = object(icm(&folder, &["list", "--json", "t.icm"]), 0);
    assert_eq!(list.names(), ["file", "accepted", "words", "models", "maps", "sections"]);
    assert_eq!(listing_of(&list), LISTING);
    let wanted = "[{\"name\":\"P\",\"order\":\"Un_ordered\",\"rows\":0,\"columns\":0,\"pins\":[\"A1\",\"A2\"]},\
                  {\"name\":\"Q\",\"order\":\"Un_ordered\",\"rows\":0,\"columns\":0,\"pins\":[\"1\",\"2\"]}]";
    assert_eq!(list.get("maps"), &Json::read(wanted));
    let matrix = &list.get("sections").list()[0].get("matrices").list()[0];
    assert_eq!(matrix.names(), ["kind", "form", "bandwidth", "line", "values"]);
    assert_eq!((matrix.get("form"), matrix.get("bandwidth")), (&text("Full_matrix"), &Json::Null));
    assert_eq!(matrix.get("line"), &number("33"));
}

#[test]
fn forms_lengths_and_sides() {
    let folder = folder("json-forms");
    let matrices = "[Capacitance Matrix] Banded_matrix\n[Bandwidth] 1\n[Row] 1\n1p -2f\n[Row] 2\n0\n\
                    [Resistance Matrix] Sparse_matrix\n[Row] 2\n2 1\n\
                    [Conductance Matrix] Diagonal_matrix\n1 2\n[End ICM Section]";
    let lines = with_line(38, matrices).replace("Mult=2", "Len=25m").replace("Mult=1", "Len=1");
    write(&folder, "x.icm", lines.replace("Lumped", "Distributed").replace("pinmap Q", "pinmap Q\nSide left"));
    let list = object(icm(&folder, &["list", "--json", "x.icm"]), 0);
    let forms: Vec<_> = list.get("sections").list()[0]
        .get("matrices")
        .list()
        .iter()
        .map(|matrix| (matrix.get("kind").text(), matrix.get("form").text(), matrix.get("bandwidth").clone()))
        .collect();
    let wanted = [
        ("L", "Full_matrix", Json::Null),
        ("C", "Banded_matrix", number("1")),
        ("R", "Sparse_matrix", Json::Null),
        ("G", "Diagonal_matrix", Json::Null),
    ];
    assert_eq!(forms, wanted);
    let steps = list.get("models").list()[0].get("steps").list();
    let length = Json::read("{\"value\":\"25e-3\",\"word\":\"6522\",\"double\":2.5e-2}");
    assert_eq!((steps[1].get("len"), steps[5].get("side")), (&length, &text("left")));
}

#[test]
fn check() {
    let folder = folder("json-check");
    let ran = icm(&folder, &["check", "--json", "t.icm", "bad.icm", "none.icm"]);
    assert_eq!((ran.status, ran.errors.as_str()), (2, ""));
    let objects: Vec<Json> = ran.results.lines().map(Json::read).collect();
    let wanted = [
        "{\"file\":\"t.icm\",\"accepted\":true,\"words\":92,\"models\":1,\"sections\":1}",
        "{\"file\":\"bad.icm\",\"refused\":{\"number\":22,\"name\":\"SIDE\",\"line\":18,\"meaning\":\
         \"two ends of a path on one map, with Side lacking at either or the same\",\
         \"text\":\"Model_pinmap P\",\"note\":null}}",
        "{\"file\":\"none.icm\",\"error\":\"No such file or directory (os error 2)\"}",
    ];
    assert_eq!(objects, wanted.map(Json::read));
}

/// Refusals and files that cannot be read are told alike by every verb.
#[test]
fn refusals_and_failures() {
    let folder = folder("json-refusals");
    for verb in [&["list", "--json"][..], &["walk", "--json", "A"], &["entry", "--json", "S", "L", "1", "1"]] {
        let asked = |file: &'static str| [&verb[..2], &[file], &verb[2..]].concat();
        let refused = object(icm(&folder, &asked("bad.icm")), 1);
        assert_eq!(refused.names(), ["file", "refused"]);
        let refused = refused.get("refused");
        assert_eq!((refused.get("number"), refused.get("line")), (&number("22"), &number("18")));
        assert_eq!(object(icm(&folder, &asked("none.icm")), 2).names(), ["file", "error"]);
    }
    let missing = object(icm(&folder, &["entry", "--json", "t.icm", "T", "L", "1", "1"]), 1);
    let missing = missing.get("refused");
    assert_eq!((missing.get("number"), missing.get("name")), (&number("31"), &text("NOSUCH")));
    assert_eq!((missing.get("line"), missing.get("text")), (&number("0"), &Json::Null));
    assert_eq!(missing.get("note"), &text("no section named T: the sections are S"));
}

/// A line may hold any bytes, and a file any name.
#[test]
fn bytes_that_json_cannot_hold() {
    let folder = folder("json-bytes");
    write(&folder, "a\"b\\c.icm", [b"x\"\\\t\x01\xff\xc3\xa9\n".as_slice()].concat());
    let refused = object(icm(&folder, &["list", "--json", "a\"b\\c.icm"]), 1);
    assert_eq!(refused.get("file"), &text("a\"b\\c.icm"));
    assert_eq!(refused.get("refused").get("text"), &text("x\"\\\t\u{1}\u{fffd}\u{e9}"));
}

/// What a script is told of the greatest file is all of it.
#[test]
fn the_greatest_file() {
    let great = path("crates/test_vectors/data/bound_text_1048576_values_65536.icm");
    let name = great.to_str().expect("a name in UTF-8");
    let folder = folder("json-great");
    let list = object(icm(&folder, &["list", "--json", name]), 0);
    assert_eq!(listing_of(&list), icm(&folder, &["list", name]).results);
    let written: usize = sections(&list).map(|(_, matrix)| matrix.get("values").list().len()).sum();
    assert_eq!(written, 65_536);
}

/// The matrices of all sections, each with its section.
fn sections(list: &Json) -> impl Iterator<Item = (&Json, &Json)> {
    let matrices = |section: &'_ Json| section.get("matrices").list().len();
    let all = list.get("sections").list();
    all.iter()
        .flat_map(move |section| (0..matrices(section)).map(move |at| (section, &section.get("matrices").list()[at])))
}

/// The listing that an object of `list` comes to, by the paper's part "Listing".
pub fn listing_of(list: &Json) -> String {
    let mut lines = vec![format!("accepted {}", list.get("words").text())];
    let [models, maps, all] = ["models", "maps", "sections"].map(|part| list.get(part).list());
    lines.push(format!("models {}", models.len()));
    let told = |item: &Json, name: &str| item.get(name).text().to_string();
    lines.extend(
        models.iter().map(|model| {
            format!("{} {} {}", told(model, "name"), told(model, "type"), model.get("steps").list().len())
        }),
    );
    let steps: Vec<&Json> = models.iter().flat_map(|model| model.get("steps").list()).collect();
    lines.push(format!("steps {}", steps.len()));
    lines.extend(steps.into_iter().map(step_line));
    lines.push(format!("maps {}", maps.len()));
    lines.extend(maps.iter().map(|map| format!("{} {}", told(map, "name"), map.get("pins").list().len())));
    lines.push(format!("sections {}", all.len()));
    let section_line = |section| ["name", "method", "conductors"].map(|name| told(section, name)).join(" ");
    lines.extend(all.iter().map(section_line));
    let values: Vec<String> = sections(list)
        .flat_map(|(section, matrix)| {
            let front = format!("{} {}", told(section, "name"), told(matrix, "kind"));
            let line =
                move |value| format!("{front} {}", ["row", "column", "value"].map(|name| told(value, name)).join(" "));
            matrix.get("values").list().iter().map(line).collect::<Vec<_>>()
        })
        .collect();
    lines.push(format!("values {}", values.len()));
    lines.extend(values);
    lines.join("\n") + "\n"
}

fn step_line(step: &Json) -> String {
    let fields = step.names().into_iter().filter(|name| *name != "depth").map(|name| (name, step.get(name)));
    let told = fields.filter_map(|(name, value)| match (name, value) {
        (_, Json::Null) => None,
        ("len", length) => Some(length.get("value").text()),
        (_, value) => Some(value.text()),
    });
    told.collect::<Vec<_>>().join(" ")
}
