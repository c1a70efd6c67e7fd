//! `fill FILE OUT`: the least pairs that the verifier accepts, worked out.

use super::Command;
use crate::input::Input;
use crate::report::Report;
use std::ffi::{OsStr, OsString};
use std::fs;

pub const COMMAND: Command = Command {
    name: "fill",
    words: "FILE OUT",
    summary: "Works out the pairs of a bundle.",
    help: "\
A FILE of - is standard input. Its kinds, classes and depths are taken as they
are; the dip and the end of every reference in use are worked out, whatever
bytes stand there. OUT gets the bundle with the least pairs that the verifier
accepts: every dip and every end is the least that any accepted choice has at
its place. Nothing else is changed. OUT may be FILE.

The line is filled classes and their number, or refused with 1 to 8 as check
has it, pair bytes aside; with 23 where a record shares a byte with another or
with the directory; with 22 where no pairs would do. OUT is then left alone.
explain FILE fill says why.

Line and bytes are the proved library's.

Status 0: filled; 1: refused; 2: a bad command line or file.",
    run,
};

fn run(words: &[OsString]) -> Result<Report, String> {
    let (file, out) = both_files(words)?;
    let Input { mut bytes, .. } = Input::read(file)?;
    match hveitmar::fill(&mut bytes) {
        Ok(classes) => {
            let name = out.to_string_lossy();
            fs::write(out, bytes).map_err(|error| format!("{name}: cannot be written: {error}"))?;
            Ok(Report::done(format!("filled classes {classes}\n")))
        }
        Err(refusal) => Ok(Report::refused(format!("{refusal}\n"))),
    }
}

fn both_files(words: &[OsString]) -> Result<(&OsStr, &OsStr), String> {
    match words {
        [_, out] if out == "-" => Err(COMMAND.complaint("OUT can't be standard output")),
        [file, out] => Ok((file, out)),
        [] => Err(COMMAND.complaint("no file")),
        [_] => Err(COMMAND.complaint("no file to write")),
        _ => Err(COMMAND.complaint("more than two files")),
    }
}
