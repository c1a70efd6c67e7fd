//! `order FILE [LEVELS]`: the verdict under a lock order, or which would do.

use super::{levels, Command};
use crate::input::Input;
use crate::report::Report;
use explanation::nested;
use hveitmar::Verdict;
use reference::bundle::Bundle;
use reference::levels::{Demands, Site};
use reference::order::Levels;
use std::ffi::OsString;

pub const COMMAND: Command = Command {
    name: "order",
    words: "FILE [LEVELS]",
    summary: "Judges under a lock order by class, or finds one.",
    help: "\
A FILE of - is standard input. LEVELS are eight numbers joined by commas, 0 to
255, the level of each class: 1,0,0,0,0,0,0,0; those of classes that the bundle
has not are not looked at. A lock may then be taken only while all others that
may be held are of classes of a higher level. Of a bundle that is accepted so,
while a thread lives, some thread that lives need not wait for a lock.

The line is the proved verifier's, as check has it; 25 is a lock that is taken
out of order, 26 a list of other than eight numbers. explain FILE LEVELS says
which lock it is.

Without LEVELS it says whether any would do. If so, it prints the smallest, and
for each class that must be above another a place where that arises; the proved
verifier has tried them. If not, it names a circle of classes, a shortest one,
each of which must be above the next; that is tested, not proved.

Status 0: accepted, or levels are found; 1: refused, or no levels would do; 2: a
bad command line or file.",
    run,
};

fn run(words: &[OsString]) -> Result<Report, String> {
    let (file, list) = levels::read(&COMMAND, words)?;
    let bytes = Input::read(file)?.bytes;
    match list {
        Some(list) => Ok(line(hveitmar::verify_ordered(&bytes, &list))),
        None => search(&bytes),
    }
}

fn line(verdict: Verdict) -> Report {
    let line = format!("{verdict}\n");
    match verdict.is_accepted() {
        true => Report::done(line),
        false => Report::refused(line),
    }
}

/// What levels would do for the bundle.
fn search(bytes: &[u8]) -> Result<Report, String> {
    let verdict = hveitmar::verify(bytes);
    let demands = match Bundle::open_with_code(bytes) {
        Ok(bundle) if verdict.is_accepted() => Demands::of(&bundle),
        _ => return Ok(line(verdict)),
    };
    match demands.levels() {
        Some(levels) => found(bytes, levels, &demands),
        None => Ok(none(&demands.circle().unwrap_or_default())),
    }
}

/// The levels, once the proved verifier has accepted them.
fn found(bytes: &[u8], Levels(levels): Levels, demands: &Demands) -> Result<Report, String> {
    let verdict = hveitmar::verify_ordered(bytes, &levels);
    let numbers = levels.map(|level| level.to_string()).join(",");
    if !verdict.is_accepted() {
        return Err(format!("order: {numbers} were found, and are {verdict}"));
    }
    let sites: Vec<&Site> = demands.sites().collect();
    let why = match sites.is_empty() {
        true => "no lock is taken while another is held\n".to_string(),
        false => sites.into_iter().map(above).collect(),
    };
    Ok(Report::done(format!("levels {numbers}\n\n{why}")))
}

fn none(circle: &[Site]) -> Report {
    let classes = circle.iter().chain(circle.first());
    let classes: Vec<String> = classes
        .map(|site| format!("C{}", site.nesting.held))
        .collect();
    let why: String = circle.iter().map(above).collect();
    let circle = classes.join(" above ");
    Report::refused(format!("no levels: {circle}\n\n{why}"))
}

/// One class that must be above another, and a place where that arises.
fn above(site: &Site) -> String {
    let (held, taken) = (site.nesting.held, site.nesting.taken);
    format!("C{held} above C{taken}: {}\n", nested(site))
}
