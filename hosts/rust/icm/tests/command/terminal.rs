// terminal.rs: runs a command at a terminal of its own, so that tests see what people see there.
use std::ffi::{c_char, c_int, CStr, OsStr};
use std::fs::{File, OpenOptions};
use std::io::Read;
use std::os::fd::FromRawFd;
use std::os::unix::ffi::OsStrExt;
use std::os::unix::fs::OpenOptionsExt;
use std::process::{Command, Stdio};

/// Linux's flags of a file that is read and written, and of a terminal that does not become that of the test.
const READ_AND_WRITE: c_int = 2;
const NOT_OURS: c_int = 0o400;

extern "C" {
    fn posix_openpt(flags: c_int) -> c_int;
    fn grantpt(terminal: c_int) -> c_int;
    fn unlockpt(terminal: c_int) -> c_int;
    fn ptsname_r(terminal: c_int, name: *mut c_char, length: usize) -> c_int;
}

/// The two ends of a new terminal: that of the person, and that of the command.
fn open() -> (File, File) {
    let mut name = [0; 64];
    // SAFETY: these functions of the C library take a number, and room for a name as long as is told.
    let (number, told) = unsafe {
        let number = posix_openpt(READ_AND_WRITE | NOT_OURS);
        (number, grantpt(number) | unlockpt(number) | ptsname_r(number, name.as_mut_ptr(), name.len()))
    };
    assert!(number >= 0 && told == 0, "the system opens a terminal");
    // SAFETY: the number is that of a file that was just opened, and nobody else has it; the name was written above.
    let (person, name) = unsafe { (File::from_raw_fd(number), CStr::from_ptr(name.as_ptr())) };
    let path = OsStr::from_bytes(name.to_bytes());
    let end = OpenOptions::new().read(true).write(true).custom_flags(NOT_OURS).open(path);
    (person, end.expect("the other end of the terminal"))
}

/// What a command writes to a terminal, errors too, with line ends as they were written.
pub fn shown(command: &mut Command) -> String {
    let (mut person, end) = open();
    let again = || end.try_clone().expect("the same end once more");
    let mut child = command.stdin(again()).stdout(again()).stderr(again()).spawn().expect("the command runs");
    drop(end);
    // The command has copies of the end, which go with it.
    command.stdin(Stdio::null()).stdout(Stdio::null()).stderr(Stdio::null());
    let mut bytes = Vec::new();
    // The last end being closed is told as a failure to read.
    let _ = person.read_to_end(&mut bytes);
    child.wait().expect("the command ends");
    String::from_utf8(bytes).expect("UTF-8").replace("\r\n", "\n")
}
