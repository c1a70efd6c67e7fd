//! `build`: what every command does first, alone.

use super::Command;
use crate::report::Report;
use std::ffi::OsString;

pub const COMMAND: Command = Command {
    name: "build",
    words: "",
    summary: "Proves and builds whatever has changed, and nothing else.",
    help: "\
Every command does so first, for what it needs; build does it for all of them.
By the time that it is run, all is done, so it prints nothing.

Status 0: all is built; 2: it could not be, and standard error has why.",
    run,
};

fn run(words: &[OsString]) -> Result<Report, String> {
    match words {
        [] => Ok(Report::done(String::new())),
        _ => Err(COMMAND.complaint("it takes no words")),
    }
}
