// command.rs: tests of the command itself, run as people and scripts run it.
// What is expected is the paper's or follows from it, or stands in the test files, made apart from this project.
#[path = "command/json.rs"]
mod json;
#[path = "command/people.rs"]
mod people;
#[path = "command/scripts.rs"]
mod scripts;
#[path = "command/support.rs"]
mod support;
#[path = "command/terminal.rs"]
mod terminal;
#[path = "command/vectors.rs"]
mod vectors;
