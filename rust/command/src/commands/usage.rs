//! `usage TEXT`: a usage's dip and end, and whether it is reliable.

use super::Command;
use crate::input::Input;
use crate::report::{complain, Report};
use hveitmar::UsageRefusal;
use std::ffi::{OsStr, OsString};
use usages::Wrong;

pub const COMMAND: Command = Command {
    name: "usage",
    words: "TEXT",
    summary: "Reads a usage: dip, end, whether it is reliable.",
    help: "\
A TEXT is a usage as the paper writes it, such as 'L.L.(^L.0*^L.0)', with ^L for
its L under a hat and * for its \u{2297}: 0, L.U, ^L.U, U*U, U&U, and brackets. A
prefix binds tightest, then *, then &. A TEXT of - is standard input to its end,
where a new line is a byte like any other.

The line is the proved reader's: dip D end E reliable yes (or no), or refused
and a number. 40: more than 256 bytes; 41: no usage; 42: brackets nested more
than 16 deep; 43: a dip above 63, or an end that is not -63 to 63. For a 41
standard error says which byte is the first that no usage has there, counted
from 1; that is tested, not proved.

Status 0: read; 1: refused; 2: a bad command line or file.",
    run,
};

fn run(words: &[OsString]) -> Result<Report, String> {
    let text = bytes(only_text(words)?)?;
    Ok(match hveitmar::usage(&text) {
        Ok(usage) => Report::done(format!("{usage}\n")),
        Err(refusal) => {
            if refusal == UsageRefusal::Text {
                tell_place(&text);
            }
            Report::refused(format!("{refusal}\n"))
        }
    })
}

fn only_text(words: &[OsString]) -> Result<&OsStr, String> {
    match words {
        [text] => Ok(text),
        [] => Err(COMMAND.complaint("no text")),
        _ => Err(COMMAND.complaint("more than one text")),
    }
}

fn bytes(text: &OsStr) -> Result<Vec<u8>, String> {
    match text == "-" {
        true => Ok(Input::read(text)?.bytes),
        false => Ok(text.as_encoded_bytes().to_vec()),
    }
}

/// One line on the first wrong byte, which the second reader finds.
fn tell_place(text: &[u8]) {
    if let Err(Wrong { at, wanted, .. }) = usages::read(text) {
        let there = match text.get(at) {
            Some(b' ') => "a blank".to_string(),
            Some(byte) => byte.escape_ascii().to_string(),
            None => "missing".to_string(),
        };
        complain(&format!(
            "no usage: byte {} is {there}, where {wanted} may stand",
            at + 1
        ));
    }
}
