// support.rs: runs the command that was built, and tells what came of it; and the files that it is run over.
use std::fs;
use std::io::Write;
use std::path::{Path, PathBuf};
use std::process::{Command, Output, Stdio};
use std::thread;

/// The paper's example, and its listing from the paper's part "Listing".
pub const EXAMPLE: &str = include_str!("../../../tests/paper.icm");
pub const LISTING: &str = "accepted 92
models 1
A MLM 6
steps 6
end 13 P
section 14 S 2
fork 15
section 16 S 1
endfork 17
end 18 Q
maps 2
P 2
Q 2
sections 1
S Lumped 2
values 3
S L 1 1 45e-10
S L 1 2 8e-10
S L 2 2 45e-10
";

/// What came of a run.
#[derive(Debug, PartialEq, Eq)]
pub struct Ran {
    pub status: i32,
    pub results: String,
    pub errors: String,
}

impl Ran {
    fn new(output: Output) -> Ran {
        Ran {
            status: output.status.code().expect("a command that ends by itself"),
            results: String::from_utf8(output.stdout).expect("results in UTF-8"),
            errors: String::from_utf8(output.stderr).expect("errors in UTF-8"),
        }
    }

    pub fn new_of(status: i32, results: &str, errors: &str) -> Ran {
        Ran { status, results: results.to_string(), errors: errors.to_string() }
    }
}

/// The command, run in a folder. The terminal could show colour, if there were one.
pub fn command(folder: &Path) -> Command {
    let mut command = Command::new(env!("CARGO_BIN_EXE_icm"));
    command.current_dir(folder).env("TERM", "xterm").env_remove("NO_COLOR");
    command
}

/// Runs the command without any input.
pub fn icm(folder: &Path, arguments: &[&str]) -> Ran {
    let run = command(folder).args(arguments).stdin(Stdio::null()).output();
    Ran::new(run.expect("the command runs"))
}

/// Runs the command with something at its standard input.
pub fn icm_reading(folder: &Path, arguments: &[&str], input: Vec<u8>) -> Ran {
    let mut command = command(folder);
    command.args(arguments).stdin(Stdio::piped()).stdout(Stdio::piped()).stderr(Stdio::piped());
    let mut child = command.spawn().expect("the command runs");
    let mut stream = child.stdin.take().expect("a standard input");
    // Of a text that is too long the command does not read the rest.
    let writer = thread::spawn(move || drop(stream.write_all(&input)));
    let output = child.wait_with_output().expect("the command ends");
    writer.join().expect("the input is written, or not wanted");
    Ran::new(output)
}

/// A folder of a test's own, with the paper's example as t.icm and the same with line 18 changed as bad.icm.
pub fn folder(test: &str) -> PathBuf {
    let folder = Path::new(env!("CARGO_TARGET_TMPDIR")).join(test);
    // What an earlier run has left is in the way, and may not be there.
    let _ = fs::remove_dir_all(&folder);
    fs::create_dir_all(&folder).expect("a folder of the test's own");
    write(&folder, "t.icm", EXAMPLE);
    write(&folder, "bad.icm", with_line(18, "Model_pinmap P"));
    folder
}

pub fn write(folder: &Path, name: &str, text: impl AsRef<[u8]>) {
    fs::write(folder.join(name), text).unwrap_or_else(|error| panic!("{name}: {error}"));
}

/// The example with one line replaced.
pub fn with_line(number: usize, line: &str) -> String {
    let mut lines: Vec<&str> = EXAMPLE.lines().collect();
    lines[number - 1] = line;
    lines.join("\n") + "\n"
}

/// A path from the repository's root.
pub fn path(name: &str) -> PathBuf {
    Path::new(env!("CARGO_MANIFEST_DIR")).join("../../..").join(name)
}

pub fn text_of(name: &str) -> String {
    fs::read_to_string(path(name)).unwrap_or_else(|error| panic!("{name}: {error}"))
}
