//! `check FILE..`: the verdict on each file.

use super::Command;
use crate::input::Input;
use crate::report::{complain, Report, Status};
use std::ffi::OsString;

pub const COMMAND: Command = Command {
    name: "check",
    words: "FILE..",
    summary: "Judges each bundle, a line each.",
    help: "\
A FILE of - is standard input. The verdict is that of the proved verifier;
docs/LAW.md says what its numbers mean.

Status 0: all are accepted; 1: one is refused; 2: one cannot be read, of which
a line on standard error tells.",
    run,
};

fn run(files: &[OsString]) -> Result<Report, String> {
    if files.is_empty() {
        return Err(COMMAND.complaint("no file"));
    }
    let mut report = Report::done(String::new());
    for file in files {
        let status = match Input::read(file) {
            Ok(Input { name, bytes }) => {
                let verdict = hveitmar::verify(&bytes);
                report.text += &format!("{name}: {verdict}\n");
                match verdict.is_accepted() {
                    true => Status::Done,
                    false => Status::Refused,
                }
            }
            Err(line) => {
                complain(&line);
                Status::Failed
            }
        };
        report.status = report.status.max(status);
    }
    Ok(report)
}
