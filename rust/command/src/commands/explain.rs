//! `explain FILE [LEVELS | fill]`: why a bundle is refused, in words.

use super::{levels, Command};
use crate::input::Input;
use crate::report::Report;
use hveitmar::Verdict;
use std::ffi::{OsStr, OsString};

pub const COMMAND: Command = Command {
    name: "explain",
    words: "FILE [LEVELS | fill]",
    summary: "Says in words why a bundle is refused.",
    help: "\
A FILE of - is standard input. First comes the line of check, then the rule that
broke, the bytes or rows that were held against it, what is wrong with them and
by how much, and what that means for a lock. With LEVELS, eight numbers joined
by commas, it is the line of order: a lock that is taken out of order is told
with the entries that may be held, and their levels. With the word fill it is
the line of fill: where no pairs would do, the least that are asked for are held
against the rules, none of them above 63, and the first that breaks is told;
and, if there is one, a loop whose every turn takes a lock once more.

The line is proved. The words are tested, not proved: they come from a second
look at the place that the line names, and the tests hold that look against the
proved verdict on 100,000 refused bundles, on lock orders, and on pairs.

Status 0: accepted; 1: refused; 2: a bad command line or file.",
    run,
};

fn run(words: &[OsString]) -> Result<Report, String> {
    match words {
        [file, fill] if fill == "fill" => filling(file),
        _ => judging(words),
    }
}

fn filling(file: &OsStr) -> Result<Report, String> {
    let Input { name, bytes } = Input::read(file)?;
    Ok(match hveitmar::fill(&mut bytes.clone()) {
        Ok(classes) => Report::done(format!(
            "{name}: filled classes {classes}\n\nPairs are found.\n"
        )),
        Err(refusal) => {
            let told = explanation::explain_filling(&bytes, refusal);
            Report::refused(format!("{name}: {refusal}\n\n{told}"))
        }
    })
}

fn judging(words: &[OsString]) -> Result<Report, String> {
    let (file, levels) = levels::read(&COMMAND, words)?;
    let Input { name, bytes } = Input::read(file)?;
    let (verdict, fine) = match &levels {
        Some(levels) => {
            let verdict = hveitmar::verify_ordered(&bytes, levels);
            (
                verdict,
                "No rule is broken, and no lock is taken out of order.",
            )
        }
        None => (hveitmar::verify(&bytes), "No rule is broken."),
    };
    Ok(match verdict {
        Verdict::Accepted { .. } => Report::done(format!("{name}: {verdict}\n\n{fine}\n")),
        Verdict::Refused(refusal) => {
            let levels = levels.unwrap_or_default();
            let told = explanation::explain_ordered(&bytes, &levels, refusal);
            Report::refused(format!("{name}: {verdict}\n\n{told}"))
        }
    })
}
