//! What a command comes to.

use std::io::Write;
use std::process::ExitCode;

/// The status that the tool ends with.
#[derive(Clone, Copy, Debug, PartialEq, Eq, PartialOrd, Ord)]
pub enum Status {
    /// Accepted, or done.
    Done = 0,
    Refused = 1,
    /// A bad command line or file.
    Failed = 2,
}

/// What goes to standard output, and the status.
#[derive(Clone, Debug, PartialEq, Eq)]
pub struct Report {
    pub text: String,
    pub status: Status,
}

impl Report {
    pub fn done(text: String) -> Report {
        let status = Status::Done;
        Report { text, status }
    }

    pub fn refused(text: String) -> Report {
        let status = Status::Refused;
        Report { text, status }
    }

    /// For a failure that standard error has told of.
    pub fn failed() -> Report {
        Report {
            text: String::new(),
            status: Status::Failed,
        }
    }
}

impl From<Status> for ExitCode {
    fn from(status: Status) -> ExitCode {
        ExitCode::from(status as u8)
    }
}

/// One line on standard error. Where even that fails, the status is left.
pub fn complain(line: &str) {
    let _ = writeln!(std::io::stderr(), "hveitmar: {line}");
}
