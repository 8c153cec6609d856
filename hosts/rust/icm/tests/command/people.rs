// people.rs: the command as people run it: each verb, refusals, wrong use, help, streams and statuses.
// It is asked about the paper's example, and about the example with lines changed.
use std::fs::{self, File};
use std::io::Read;
use std::process::Stdio;

use crate::support::{command, folder, icm, icm_reading, path, with_line, write, Ran, EXAMPLE, LISTING};
use crate::terminal;

fn answered(results: &str) -> Ran {
    Ran::new_of(0, results, "")
}

fn refused(errors: &str) -> Ran {
    Ran::new_of(1, "", errors)
}

// ---- the verbs

#[test]
fn list() {
    let folder = folder("list");
    assert_eq!(icm(&folder, &["list", "t.icm"]), answered(LISTING));
    assert_eq!(icm_reading(&folder, &["list", "-"], EXAMPLE.into()), answered(LISTING));
    assert_eq!(icm_reading(&folder, &["list"], EXAMPLE.into()), answered(LISTING));
}

#[test]
fn entry() {
    let folder = folder("entry");
    let entry = |arguments: [&str; 4]| icm(&folder, &[&["entry", "t.icm"], &arguments[..]].concat());
    assert_eq!(entry(["S", "L", "1", "1"]), answered("45e-10\n"));
    assert_eq!(entry(["S", "L", "1", "2"]), answered("8e-10\n"));
    assert_eq!(entry(["S", "L", "2", "1"]), answered("8e-10\n"));
    assert_eq!(entry(["S", "C", "2", "2"]), answered("0e0\n"));
    assert_eq!(entry(["#1", "L", "2", "1"]), answered("8e-10\n"));
    assert_eq!(entry(["S", "L", "002", "01"]), answered("8e-10\n"));
    let reading = icm_reading(&folder, &["entry", "-", "S", "L", "2", "1"], EXAMPLE.into());
    assert_eq!(reading, answered("8e-10\n"));
}

const NOSUCH: &str = "t.icm: refused 31 NOSUCH: section, kind, row, column or walk place out of range\n";

#[test]
fn what_the_file_does_not_have() {
    let folder = folder("nosuch");
    let range = "rows and columns of section S are 1 to 2";
    for [row, column] in [["0", "1"], ["1", "0"], ["3", "1"], ["1", "3"], ["99999999999999999999", "1"]] {
        let ran = icm(&folder, &["entry", "t.icm", "S", "L", row, column]);
        assert_eq!(ran, refused(&format!("{NOSUCH}      = {range}\n")));
    }
    for name in ["T", "s", "#0", "#2", "#", "#x", "#18446744073709551616", ""] {
        let ran = icm(&folder, &["entry", "t.icm", name, "L", "1", "1"]);
        assert_eq!(ran, refused(&format!("{NOSUCH}      = no section named {name}: the sections are S\n")));
        let ran = icm(&folder, &["walk", "t.icm", name]);
        assert_eq!(ran, refused(&format!("{NOSUCH}      = no model named {name}: the models are A\n")));
    }
}

#[test]
fn walk() {
    let folder = folder("walk");
    let steps = "end 13 P\nsection 14 S 2\nfork 15\n  section 16 S 1\nendfork 17\nend 18 Q\n";
    assert_eq!(icm(&folder, &["walk", "t.icm", "A"]), answered(steps));
    assert_eq!(icm(&folder, &["walk", "t.icm", "#1"]), answered(steps));
    // a Side, a Len, and forks in forks
    let text = with_line(18, "Model_pinmap Q\nSide left")
        .replace("Section Mult=1 S\n", "Section Len=25m S\nFork\nFork\nModel_pinmap P\nSide x\nEndfork\nEndfork\n")
        .replace("Mult=2", "Len=1")
        .replace("Model_pinmap P\nSection", "Model_pinmap P\nSide y\nSection")
        .replace("Lumped", "Distributed")
        .replace("[End ICM Section]", "[Capacitance Matrix] Diagonal_matrix\n1 1\n[End ICM Section]");
    write(&folder, "forks.icm", text);
    let steps =
        "end 13 P y\nsection 15 S 1e0\nfork 16\n  section 17 S 25e-3\n  fork 18\n    fork 19\n      end 20 P x\n    \
                 endfork 22\n  endfork 23\nendfork 24\nend 25 Q left\n";
    assert_eq!(icm(&folder, &["walk", "forks.icm", "A"]), answered(steps));
}

#[test]
fn check_tells_one_line_for_each_file_and_the_greatest_status() {
    let folder = folder("check");
    let accepted = "t.icm: accepted, 92 words, 1 model, 1 section\n";
    let side = "bad.icm:18: refused 22 SIDE: two ends of a path on one map, with Side lacking at either or the same\n";
    let none = "icm: cannot read none.icm: No such file or directory (os error 2)\n";
    assert_eq!(icm(&folder, &["check", "t.icm"]), answered(accepted));
    assert_eq!(icm(&folder, &["check", "bad.icm"]), Ran::new_of(1, side, ""));
    assert_eq!(icm(&folder, &["check", "t.icm", "bad.icm"]), Ran::new_of(1, &format!("{accepted}{side}"), ""));
    assert_eq!(icm(&folder, &["check", "bad.icm", "t.icm"]), Ran::new_of(1, &format!("{side}{accepted}"), ""));
    let ran = icm(&folder, &["check", "none.icm", "bad.icm", "t.icm"]);
    assert_eq!(ran, Ran::new_of(2, &format!("{side}{accepted}"), none));
    let ran = icm_reading(&folder, &["check", "t.icm", "-"], b"x\n".to_vec());
    let header = "<stdin>: refused 5 HEADER: no [Begin Header] line\n";
    assert_eq!(ran, Ran::new_of(1, &format!("{accepted}{header}"), ""));
}

/// A name goes before a number.
#[test]
fn a_section_that_is_named_like_a_number() {
    let folder = folder("named");
    let second = "[End ICM Section]\n[Begin ICM Section] #1\n[Derivation Method] Lumped\n\
                  [Resistance Matrix] Diagonal_matrix\n7 8\n[End ICM Section]";
    write(&folder, "named.icm", with_line(38, second).replace("Mult=1 S", "Mult=1 #1"));
    assert_eq!(icm(&folder, &["entry", "named.icm", "#1", "R", "1", "1"]), answered("7e0\n"));
    assert_eq!(icm(&folder, &["entry", "named.icm", "#2", "R", "2", "2"]), answered("8e0\n"));
    let ran = icm(&folder, &["check", "named.icm"]);
    // besides the 92 of the example the words of a section, a matrix and two values: 8, 5 and 3 each
    assert_eq!(ran.results, "named.icm: accepted, 111 words, 1 model, 2 sections\n");
    let ran = icm(&folder, &["entry", "named.icm", "#3", "R", "1", "1"]);
    assert!(ran.errors.ends_with("= no section named #3: the sections are S, #1\n"), "{ran:?}");
}

// ---- refusals

#[test]
fn a_refusal_shows_the_line() {
    let folder = folder("refusal");
    let side = "two ends of a path on one map, with Side lacking at either or the same";
    let told = |name: &str| {
        refused(&format!("{name}:18: refused 22 SIDE: {side}\n   18 | Model_pinmap P\n      | ^^^^^^^^^^^^^^\n"))
    };
    assert_eq!(icm(&folder, &["list", "bad.icm"]), told("bad.icm"));
    assert_eq!(icm(&folder, &["entry", "bad.icm", "S", "L", "1", "1"]), told("bad.icm"));
    assert_eq!(icm(&folder, &["walk", "bad.icm", "none"]), told("bad.icm"));
    let ran = icm_reading(&folder, &["list", "-"], with_line(18, "Model_pinmap P").into());
    assert_eq!(ran, told("<stdin>"));
}

#[test]
fn a_refusal_marks_the_content() {
    let folder = folder("marks");
    for (line, told) in [
        (
            " \tSection\tMult=x S  | comment",
            "   16 |         Section Mult=x S  | comment\n      |         ^^^^^^^^^^^^^^^^\n",
        ),
        ("[Foo Bar]\r", "   16 | [Foo Bar]\n      | ^^^^^^^^^\n"),
        ("Section Mult=1 \u{fc}", "   16 | Section Mult=1 \\xC3\\xBC\n      |                ^^^^^^^^\n"),
    ] {
        write(&folder, "x.icm", with_line(16, line));
        let ran = icm(&folder, &["list", "x.icm"]);
        let (first, rest) = ran.errors.split_once('\n').expect("a line");
        assert!(first.starts_with("x.icm:16: refused "), "{first}");
        assert_eq!((ran.status, rest), (1, told));
    }
    // a line of six digits
    write(&folder, "deep.icm", "\n".repeat(123_455) + "[Begin Header]\nx\n");
    let told = "deep.icm:123457: refused 12 LINE: line that its place does not take\n123457 | x\n       | ^\n";
    assert_eq!(icm(&folder, &["list", "deep.icm"]), refused(told));
}

#[test]
fn without_a_line_none_is_shown() {
    let folder = folder("line0");
    write(&folder, "empty.icm", "");
    let told = "empty.icm: refused 5 HEADER: no [Begin Header] line\n";
    assert_eq!(icm(&folder, &["list", "empty.icm"]), refused(told));
    assert_eq!(icm(&folder, &["check", "empty.icm"]), Ran::new_of(1, told, ""));
    write(&folder, "long.icm", EXAMPLE.to_string() + &"\n".repeat(1_048_577 - EXAMPLE.len()));
    let told = "long.icm: refused 1 SIZE: text over 1,048,576 bytes\n";
    assert_eq!(icm(&folder, &["list", "long.icm"]), refused(told));
    let ran = icm_reading(&folder, &["check", "-"], vec![b'\n'; 5_000_000]);
    assert_eq!(ran, Ran::new_of(1, "<stdin>: refused 1 SIZE: text over 1,048,576 bytes\n", ""));
}

/// "text over 1,048,576 bytes" is refused, and no other for its length.
#[test]
fn files_of_every_size_are_taken() {
    let folder = folder("sizes");
    write(&folder, "most.icm", EXAMPLE.to_string() + &"\n".repeat(1_048_576 - EXAMPLE.len()));
    assert_eq!(icm(&folder, &["list", "most.icm"]), answered(LISTING));
}

// ---- files that cannot be read, and wrong use

#[test]
fn files_that_cannot_be_read() {
    let folder = folder("unreadable");
    fs::create_dir(folder.join("inner")).expect("a folder");
    for (name, why) in
        [("none.icm", "No such file or directory (os error 2)"), ("inner", "Is a directory (os error 21)")]
    {
        let told = Ran::new_of(2, "", &format!("icm: cannot read {name}: {why}\n"));
        for arguments in
            [&["list", name][..], &["entry", name, "S", "L", "1", "1"], &["walk", name, "A"], &["check", name]]
        {
            assert_eq!(icm(&folder, arguments), told);
        }
    }
}

#[test]
fn wrong_use_is_told_in_one_line() {
    let folder = folder("wrong");
    for (arguments, told) in [
        (&[][..], "nothing is asked for; see icm --help"),
        (&["--json"], "nothing is asked for; see icm --help"),
        (&["lst", "t.icm"], "there is no 'icm lst'; see icm --help"),
        (&["list", "t.icm", "--jsn"], "there is no option --jsn; see icm --help"),
        (&["-x"], "there is no option -x; see icm --help"),
        (&["list", "t.icm", "t.icm"], "usage: icm list [--json] [FILE]; see icm list --help"),
        (&["walk", "t.icm"], "usage: icm walk [--json] FILE MODEL; see icm walk --help"),
        (&["walk", "t.icm", "A", "B"], "usage: icm walk [--json] FILE MODEL; see icm walk --help"),
        (&["check"], "usage: icm check [--json] FILE..; see icm check --help"),
        (&["check", "-", "t.icm", "-"], "standard input can be read once, and - stands twice; see icm check --help"),
        (&["entry", "t.icm"], "usage: icm entry [--json] FILE SECTION KIND ROW COLUMN; see icm entry --help"),
        (&["entry", "t.icm", "S", "l", "1", "1"], "KIND is R, L, G or C, and not 'l'; see icm entry --help"),
        (&["entry", "t.icm", "S", "RL", "1", "1"], "KIND is R, L, G or C, and not 'RL'; see icm entry --help"),
        (&["entry", "t.icm", "S", "L", "x", "1"], "ROW is a whole number, and not 'x'; see icm entry --help"),
        (&["entry", "t.icm", "S", "L", "1", ""], "COLUMN is a whole number, and not ''; see icm entry --help"),
        (&["entry", "t.icm", "S", "L", "1", "+1"], "COLUMN is a whole number, and not '+1'; see icm entry --help"),
        (&["entry", "--", "t.icm", "S", "L", "-1", "1"], "ROW is a whole number, and not '-1'; see icm entry --help"),
        (&["help", "lst"], "there is no 'icm lst'; see icm --help"),
    ] {
        assert_eq!(icm(&folder, arguments), Ran::new_of(2, "", &format!("icm: {told}\n")), "{arguments:?}");
    }
}

/// Options stand anywhere before `--`, and a file may be named as one.
#[test]
fn names_that_begin_with_a_dash() {
    let folder = folder("dash");
    write(&folder, "--json", EXAMPLE);
    assert_eq!(icm(&folder, &["list", "--", "--json"]), answered(LISTING));
    assert_eq!(icm(&folder, &["--", "list", "--json"]), answered(LISTING));
    assert!(icm(&folder, &["list", "t.icm", "--json"]).results.starts_with('{'));
    assert!(icm(&folder, &["--json", "list", "t.icm"]).results.starts_with('{'));
}

// ---- help

/// Each example of the help prints what the help says, over the files that it names.
#[test]
fn the_examples_of_the_help_are_true() {
    let folder = folder("help");
    for verb in ["list", "entry", "walk", "check"] {
        let help = icm(&folder, &[verb, "--help"]);
        assert_eq!((help.status, help.errors.as_str()), (0, ""));
        assert_eq!(icm(&folder, &["help", verb]), help);
        let (_, examples) = help.results.split_once("    $ icm ").expect("an example");
        for example in examples.split("    $ icm ") {
            let mut lines = example.lines();
            let asked = lines.next().expect("the command").replace('\'', "");
            let wanted: String =
                lines.map_while(|line| line.strip_prefix("    ")).map(|line| format!("{line}\n")).collect();
            assert!(!wanted.is_empty(), "{verb}");
            assert_eq!(icm(&folder, &asked.split(' ').collect::<Vec<_>>()).results, wanted, "{asked}");
        }
    }
}

#[test]
fn help_and_version() {
    let folder = folder("overview");
    let help = icm(&folder, &["--help"]);
    assert_eq!((help.status, help.errors.as_str()), (0, ""));
    for verb in ["icm list", "icm entry", "icm walk", "icm check"] {
        assert!(help.results.contains(verb), "{verb}");
    }
    for arguments in [&["-h"][..], &["help"], &["help", "--json"]] {
        assert_eq!(icm(&folder, arguments), help);
    }
    assert_eq!(icm(&folder, &["--version"]), answered(&format!("icm {}\n", env!("CARGO_PKG_VERSION"))));
    assert_eq!(icm(&folder, &["-V"]), icm(&folder, &["--version"]));
}

// ---- streams

/// Who reads the results may stop at any time: the command ends quietly, with the status that it would have had.
#[test]
fn a_broken_pipe_is_no_crash() {
    let folder = folder("pipe");
    let great = path("crates/test_vectors/data/bound_text_1048576_values_65536.icm");
    for arguments in [&["list"][..], &["list", "--json"]] {
        let mut command = command(&folder);
        command.args(arguments).arg(&great).stdout(Stdio::piped()).stderr(Stdio::piped());
        let mut child = command.spawn().expect("the command runs");
        let mut front = [0; 8];
        child.stdout.take().expect("the results").read_exact(&mut front).expect("some results");
        let output = child.wait_with_output().expect("the command ends");
        assert_eq!((output.status.code(), output.stderr), (Some(0), vec![]), "{arguments:?}");
    }
}

#[test]
fn results_that_cannot_be_written_are_told() {
    let folder = folder("full");
    let full = File::options().write(true).open("/dev/full").expect("Linux has a device that is always full");
    let output = command(&folder).args(["list", "t.icm"]).stdout(full).output().expect("the command runs");
    let told = "icm: cannot write the results: No space left on device (os error 28)\n";
    assert_eq!((output.status.code(), output.stderr), (Some(2), told.into()));
}

#[test]
fn colour_is_for_terminals_alone() {
    let folder = folder("colour");
    for arguments in [&["list", "bad.icm"][..], &["check", "t.icm", "bad.icm"]] {
        let ran = icm(&folder, arguments);
        let plain = format!("{}{}", ran.results, ran.errors);
        assert!(!plain.contains('\x1b'), "{plain}");
        let painted = terminal::shown(command(&folder).args(arguments));
        assert!(painted.contains("\x1b[1;31mrefused 22 SIDE\x1b[0m: two ends"), "{painted:?}");
        assert_eq!(without_colour(&painted), plain);
        assert_eq!(terminal::shown(command(&folder).args(arguments).env("NO_COLOR", "1")), plain);
        assert_eq!(terminal::shown(command(&folder).args(arguments).env("TERM", "dumb")), plain);
    }
}

/// Results and errors that go to one place stand there in the order of the files.
#[test]
fn files_are_told_in_their_order() {
    let folder = folder("order");
    let both = File::create(folder.join("both")).expect("a file of the test's own");
    let mut command = command(&folder);
    command.args(["check", "t.icm", "none.icm", "t.icm"]);
    command.stdout(both.try_clone().expect("the same file")).stderr(both).status().expect("the command runs");
    let told = fs::read_to_string(folder.join("both")).expect("what was told");
    let firsts: Vec<&str> = told.lines().map(|line| line.split(':').next().expect("a word")).collect();
    assert_eq!(firsts, ["t.icm", "icm", "t.icm"]);
}

/// At a terminal nothing stands at the standard input yet, so there `list` wants a FILE.
#[test]
fn at_a_terminal_list_wants_a_file() {
    let folder = folder("terminal");
    let told = "icm: usage: icm list [--json] [FILE]; see icm list --help\n";
    assert_eq!(terminal::shown(command(&folder).arg("list")), told);
}

/// What stands between an escape and its `m` is a colour.
fn without_colour(text: &str) -> String {
    let mut parts = text.split('\x1b');
    let first = parts.next().expect("a front").to_string();
    first + &parts.map(|part| part.split_once('m').expect("the end of a colour").1).collect::<String>()
}
