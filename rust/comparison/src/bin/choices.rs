//! Tries all choices of pairs on tiny bundles, and holds what both sides fill in
//! against the least of what is accepted.
//!
//! `choices [bundles of one reference] [of two] [first seed]`; one of two takes
//! 66 million verdicts. Ends with status 1 where something differs.

use comparison::choices::{bundles as tiny_bundles, Tried};
use std::process::ExitCode;

fn main() -> ExitCode {
    let mut arguments = std::env::args()
        .skip(1)
        .map(|a| a.parse::<u64>().expect("a number"));
    let one = arguments.next().unwrap_or(2_000) as usize;
    let two = arguments.next().unwrap_or(20) as usize;
    let first = arguments.next().unwrap_or(0);
    let mut same = true;
    for (references, wanted) in [(1, one), (2, two)] {
        let mut tried = Tried::default();
        for (seed, bundle) in tiny_bundles(first, references, wanted) {
            if let Err(difference) = tried.add(&bundle) {
                println!("DIFFERENCE seed {seed}: {difference}");
                same = false;
            }
        }
        let Tried {
            filled,
            none,
            choices,
            accepted,
        } = tried;
        println!(
            "references {references}: {choices} choices, {accepted} of them accepted; filled \
             {filled}, none {none}"
        );
    }
    match same {
        true => ExitCode::SUCCESS,
        false => ExitCode::FAILURE,
    }
}
