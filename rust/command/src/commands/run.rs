//! `run FILE SCHEDULE`: a whole schedule on a bundle that is accepted.

use super::Command;
use crate::input::Input;
use crate::report::Report;
use std::ffi::{OsStr, OsString};

pub const COMMAND: Command = Command {
    name: "run",
    words: "FILE SCHEDULE",
    summary: "Runs a bundle that is accepted to the end of a schedule.",
    help: "\
Both are files, and one of them may be -, standard input. A SCHEDULE has one
byte for each step: its low three bits are the thread, its top bit says that an
allocation fails in this step, its other bits say nothing. There may be
67,108,864 of them.

The bundle is judged once. If it is accepted, the schedule is run from the fresh
machine, and the first line is ran and how many steps went on or ended a thread.
Steps that have to wait, or whose thread does not live, change nothing and are
not counted. If it is not, nothing is run, and the line is refused 19 with the
verdict. Then comes the state at the end, in the lines that hveitmar_trace
prints: eight threads, the objects, their fields. Where nothing was run it has
no live thread and no object.

Number, verdict and state are the proved library's; how they are written is
tested, not proved.

Status 0: run; 1: refused; 2: a bad command line or file.",
    run,
};

fn run(words: &[OsString]) -> Result<Report, String> {
    let (file, schedule) = both_files(words)?;
    let Input { bytes, .. } = Input::read(file)?;
    let ran = hveitmar::run(&bytes, &Input::read_schedule(schedule)?);
    let state = trace::decode_state(&ran.state).ok_or("run: the state cannot be read")?;
    let text = format!("{ran}\n{}", trace::state_text(&state));
    Ok(match ran.steps {
        Ok(_) => Report::done(text),
        Err(_) => Report::refused(text),
    })
}

fn both_files(words: &[OsString]) -> Result<(&OsStr, &OsStr), String> {
    match words {
        [file, schedule] if file == "-" && schedule == "-" => {
            Err(COMMAND.complaint("standard input can't be both files"))
        }
        [file, schedule] => Ok((file, schedule)),
        [] => Err(COMMAND.complaint("no file")),
        [_] => Err(COMMAND.complaint("no schedule")),
        _ => Err(COMMAND.complaint("more than two files")),
    }
}
