//! The tool behind `./hveitmar COMMAND ..`: each command is a module of
//! `commands`, and a line of its table.

mod commands;
mod input;
mod report;

use report::{complain, Report};
use std::ffi::OsString;
use std::io::{ErrorKind, Write};
use std::process::ExitCode;

fn main() -> ExitCode {
    let words: Vec<OsString> = std::env::args_os().skip(1).collect();
    let report = commands::run(&words).unwrap_or_else(|line| {
        complain(&line);
        Report::failed()
    });
    let mut out = std::io::stdout();
    let written = out
        .write_all(report.text.as_bytes())
        .and_then(|()| out.flush());
    match written {
        Ok(()) => report.status.into(),
        // Whoever reads the output has had enough of it.
        Err(error) if error.kind() == ErrorKind::BrokenPipe => report.status.into(),
        Err(error) => {
            complain(&format!("standard output: {error}"));
            Report::failed().status.into()
        }
    }
}
