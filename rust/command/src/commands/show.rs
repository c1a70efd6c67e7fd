//! `show FILE`: the listing of a bundle.

use super::Command;
use crate::input::Input;
use crate::report::Report;
use hveitmar::Verdict;
use listing::Program;
use std::ffi::OsString;

pub const COMMAND: Command = Command {
    name: "show",
    words: "FILE",
    summary: "Lists each class: addresses, instructions, rows.",
    help: "\
A FILE of - is standard input. Beside each instruction stands its row: the
variables, a bar, and the stack from its top. Int is an integer, Top anything
at all, C0(1,-1) a reference of class 0 with dip 1 and end -1, C0? one that may
be null; getfield C1.2 reads field 2 of class 1. Bytes that are no instruction
stand as none[..], those that are no entry as malformed[..].

Status 0: listed, whatever the verdict; 1: the container cannot be read (verdict
1 to 6), and it says why; 2: a bad command line or file.",
    run,
};

/// Verdicts up to this one leave no method that could be listed.
const UNREADABLE: u8 = 6;

fn run(words: &[OsString]) -> Result<Report, String> {
    let Input { name, bytes } = Input::read(COMMAND.only_file(words)?)?;
    let verdict = hveitmar::verify(&bytes);
    Ok(match verdict {
        Verdict::Refused(refusal) if refusal.number() <= UNREADABLE => {
            let told = explanation::explain(&bytes, refusal);
            Report::refused(format!("{name}: {verdict}\n\n{told}"))
        }
        _ => Report::done(format!("{name}: {verdict}\n\n{}", Program::new(&bytes))),
    })
}
