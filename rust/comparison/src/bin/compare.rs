//! Holds the proved verifier, machine, reader of usages and taker of methods
//! against the references.
//!
//! `compare [bundles] [schedules] [first seed] [part]`; with the name of a part
//! only that is compared. Ends with status 1 if anything differs, could not be
//! compared, or never came up.

use comparison::fillings::Fillings;
use comparison::gates::Gates;
use comparison::holdings::Holdings;
use comparison::meetings::Meetings;
use comparison::order::Order;
use comparison::orders::Orders;
use comparison::progress::Progress;
use comparison::records::Records;
use comparison::runs::Runs;
use comparison::states::States;
use comparison::takings::Takings;
use comparison::texts::Texts;
use comparison::traces::Traces;
use comparison::verdicts::Verdicts;
use comparison::Part;
use std::io::Error;
use std::process::ExitCode;

/// One bundle with two breaches for so many others.
const BUNDLES_A_PAIR: u64 = 10;
/// One bundle whose pairs are worked out for so many others.
const BUNDLES_A_FILLING: u64 = 2;
/// One call of the weaver's gate for so many bundles.
const BUNDLES_A_GATE: u64 = 6;
/// One bundle judged under lock orders for so many others: it gets several
/// lists of levels.
const BUNDLES_AN_ORDER: u64 = 10;
/// One bundle whose records are looked up for so many others.
const BUNDLES_A_RECORD: u64 = 10;
/// One text of a usage for so many bundles.
const BUNDLES_A_TEXT: u64 = 5;
/// One method of a class file for so many bundles.
const BUNDLES_AN_ATTRIBUTE: u64 = 3;
/// One run watched for progress for so many schedules: after each step all
/// threads are tried.
const SCHEDULES_A_WATCHED_RUN: u64 = 4;
/// One run asked for what its steps meet for so many schedules: each question
/// runs all of it.
const SCHEDULES_A_MEETING: u64 = 5;
/// One trace input for so many schedules: each starts a process.
const SCHEDULES_A_TRACE: u64 = 10;
/// One run compared state by state for so many: each step starts a process.
const SCHEDULES_A_STATED_RUN: u64 = 50;

fn main() -> ExitCode {
    let words: Vec<String> = std::env::args().skip(1).collect();
    let number = |at: usize, usual: u64| {
        words
            .get(at)
            .map_or(usual, |word| word.parse().expect("a number"))
    };
    let (bundles, schedules) = (number(0, 1_000_000), number(1, 100_000));
    let (first, only) = (number(2, 0), words.get(3).map(String::as_str));
    println!(
        "compare {bundles} {schedules} {first} {}",
        only.unwrap_or_default()
    );
    match compare(bundles, schedules, first, only) {
        Ok((0, 0)) => ExitCode::SUCCESS,
        Ok(_) => ExitCode::FAILURE,
        Err(error) => {
            println!("could not be compared: {error}");
            ExitCode::FAILURE
        }
    }
}

/// A part by its name, and how many inputs it gets.
type Share = (&'static str, Box<dyn Part>, u64);

fn share<P: Part + 'static>(name: &'static str, part: P, inputs: u64, apiece: u64) -> Share {
    (name, Box::new(part), inputs.div_ceil(apiece))
}

fn parts(bundles: u64, schedules: u64) -> Result<Vec<Share>, Error> {
    // What needs the trace program comes first, so that a lack of it is told
    // at once.
    let traces = Traces::with_program()?;
    let states = States::with_program()?;
    let (verdicts, texts) = (Verdicts::around_case_a(), Texts::of_small_usages());
    let fillings = Fillings::default();
    Ok(vec![
        share("verdicts", verdicts, bundles, 1),
        share("order", Order::default(), bundles, BUNDLES_A_PAIR),
        share("pairs", fillings, bundles, BUNDLES_A_FILLING),
        share("gate", Gates::default(), bundles, BUNDLES_A_GATE),
        share("orders", Orders::default(), bundles, BUNDLES_AN_ORDER),
        share(
            "progress",
            Progress::default(),
            schedules,
            SCHEDULES_A_WATCHED_RUN,
        ),
        share("records", Records::default(), bundles, BUNDLES_A_RECORD),
        share("runs", Runs::default(), schedules, 1),
        share("holdings", Holdings::default(), schedules, 1),
        share(
            "meetings",
            Meetings::default(),
            schedules,
            SCHEDULES_A_MEETING,
        ),
        share("traces", traces, schedules, SCHEDULES_A_TRACE),
        share("states", states, schedules, SCHEDULES_A_STATED_RUN),
        share("texts", texts, bundles, BUNDLES_A_TEXT),
        share("methods", Takings::default(), bundles, BUNDLES_AN_ATTRIBUTE),
    ])
}

/// How much differs, and how much never came up.
fn compare(
    bundles: u64,
    schedules: u64,
    first: u64,
    only: Option<&str>,
) -> Result<(u64, u64), Error> {
    let (mut differences, mut missing, mut compared) = (0, 0, 0);
    for (name, mut part, inputs) in parts(bundles, schedules)? {
        if only.is_some_and(|only| only != name) {
            continue;
        }
        (first..first + inputs).for_each(|seed| part.generated(seed));
        part.print();
        differences += part.differences();
        missing += never_seen(part.as_ref());
        compared += 1;
    }
    if compared == 0 {
        return Err(Error::other("there is no such part"));
    }
    println!("differences in all: {differences}");
    println!("never seen in all: {missing}");
    Ok((differences, missing))
}

/// Prints what should have come up and never did.
fn never_seen(part: &dyn Part) -> u64 {
    let missing = part.seen().into_iter().filter(|&(_, count)| count == 0);
    missing
        .map(|(what, _)| println!("  NEVER SEEN: {what}"))
        .count() as u64
}
