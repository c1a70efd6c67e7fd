//! `trace FILE STEP..`: a run, step by step.

mod schedule;
mod step;
mod story;

use super::Command;
use crate::input::Input;
use crate::report::Report;
use hveitmar::{Answer, Verdict};
use std::ffi::OsString;
use story::Story;

pub const COMMAND: Command = Command {
    name: "trace",
    words: "FILE STEP..",
    summary: "Runs a schedule and tells of each step.",
    help: "\
A FILE of - is standard input. A STEP is the number of the thread that takes it,
0 to 15, of which 0 to 7 can live; with ! behind it an allocation fails in this
step: 0 0 1 0!. There may be 4,096 of them. The machine is the proved one, the
program hveitmar_trace, and begins fresh.

Of each step are told the thread, its class and address, the instruction, the
object that it works on (null where it finds none), how many objects the thread
holds after it (by the proved library), and the answer; then how many each
living thread holds, and of each of them how often the thread took its lock and
gave it back since it started, and the machine's count.

Both numbers are those of the steps: of the thread's monitorenters on the object
that answered 0, and of its monitorexits. What a step met is told by the proved
library; the counting is tested, not proved. In an accepted bundle their
difference is the count.

Status 0: run, whatever the answers; 1: the bundle cannot be run (verdict 1 to
7); 2: a bad command line or file.",
    run,
};

/// Verdicts up to this one are of bundles that the machine does not run.
const NOT_RUN: u8 = 7;

fn run(words: &[OsString]) -> Result<Report, String> {
    let Some((file, steps)) = words.split_first() else {
        return Err(COMMAND.complaint("no file"));
    };
    let turns = schedule::read(steps).map_err(|what| COMMAND.complaint(&what))?;
    let Input { name, bytes } = Input::read(file)?;
    let verdict = hveitmar::verify(&bytes);
    if let Verdict::Refused(refusal) = verdict {
        if refusal.number() <= NOT_RUN {
            let answer = Answer::BadBundle;
            let text = format!(
                "{name}: {verdict}\n\nanswer {}: {answer}\n",
                answer.number()
            );
            return Ok(Report::refused(text));
        }
    }
    let story = Story::of(&bytes, &turns).map_err(|error| format!("trace: {error}"))?;
    Ok(Report::done(format!("{name}: {verdict}\n\n{story}")))
}
