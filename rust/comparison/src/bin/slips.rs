//! Shows that the generated inputs notice every slip.
//!
//! For a verifier's slip: a bundle that only the slipped verifier accepts,
//! and a schedule on which the true machine then draws the fault that the
//! slip leads to. For a machine's slip: an accepted bundle and a schedule on
//! which the slipped machine answers otherwise than the true one. For a slip
//! of the held words: a state, or a run from it, where the slipped machine tells
//! another number of objects held. For a slip of histories: a run in which a
//! step meets something else, or a lock was taken or given back another number
//! of times. For a slip of the lock order: a bundle that only the slipped
//! verifier accepts, under levels that it takes to do, and a schedule after
//! which all threads wait; or a bundle and a list of levels of which it says
//! something else. For a slip of the call that runs a list: a bundle and a list
//! that come to something else. For a slip of the call that works pairs out: a
//! bundle that it answers otherwise or in which it writes something else. For a
//! slip of the weaver's gate: a call that it answers otherwise or for which it
//! writes something else. For a slip of the reader of usages: a text that it
//! answers otherwise. For a slip of taking methods: an attribute of which it says
//! or writes something else.

use comparison::gates::blank;
use comparison::lists;
use comparison::orders::{inputs, Input};
use comparison::progress::{next_answers, stands_still};
use comparison::takings::taken_by;
use generator::attributes::taking;
use generator::families::{nesting, recurring, sharing, typed};
use generator::pairs::unpaired;
use generator::rng::Rng;
use generator::schedule::{any_state, Scheduler};
use generator::texts::text;
use generator::weaves::weave;
use reference::bundle::Bundle;
use reference::fill::fill;
use reference::gate::{gate, Gated};
use reference::history::History;
use reference::machine::{answer, fresh, held_in, step_in};
use reference::met::met_in;
use reference::run::{run, Ran};
use reference::slips::Slip;
use reference::state::{OBJECTS, THREADS};
use reference::take::{self, take};
use reference::verify::{verify, verify_ordered};
use std::process::ExitCode;
use usages::slips::SLIPS;
use usages::{answer as answer_of, Answer};

const BUNDLES: u64 = 20_000;
const SCHEDULES: u64 = 20;
const STEPS: usize = 400;
const HELD_STEPS: usize = 20;
const TEXTS: u64 = 20_000;
const ATTRIBUTES: u64 = 20_000;

/// What takes a method.
type Taker = fn(&[u8], &[u16], &mut [u8]) -> take::Answer;

fn main() -> ExitCode {
    let verifier = Slip::VERIFIER.map(|slip| (slip, (0..BUNDLES).find_map(|s| caught(slip, s))));
    let machine = Slip::MACHINE.map(|slip| (slip, (0..BUNDLES).find_map(|s| differs(slip, s))));
    let words = Slip::WORDS.map(|slip| (slip, (0..BUNDLES).find_map(|s| misheld(slip, s))));
    let histories =
        Slip::HISTORIES.map(|slip| (slip, (0..BUNDLES).find_map(|s| misremembered(slip, s))));
    let standstill =
        Slip::STANDSTILL.map(|slip| (slip, (0..BUNDLES).find_map(|s| stopped(slip, s))));
    let order = Slip::ORDER.map(|slip| (slip, (0..BUNDLES).find_map(|s| misordered(slip, s))));
    let lists = Slip::LISTS.map(|slip| (slip, (0..BUNDLES).find_map(|s| misrun(slip, s))));
    let pairs = Slip::PAIRS.map(|slip| (slip, (0..BUNDLES).find_map(|s| misfilled(slip, s))));
    let gate = Slip::GATE.map(|slip| (slip, (0..BUNDLES).find_map(|s| misgated(slip, s))));
    let named = |(slip, found)| (format!("{slip:?}"), found);
    let reader = SLIPS.map(|(name, slipped)| {
        let found = (0..TEXTS).find_map(|seed| misread(slipped, seed));
        (name.to_string(), found)
    });
    let taker = take::slips::SLIPS.map(|(name, slipped)| {
        let found = (0..ATTRIBUTES).find_map(|seed| mistaken(slipped, seed));
        (name.to_string(), found)
    });
    let mut all_found = true;
    let all = verifier.into_iter().chain(machine).chain(words);
    let all = all.chain(histories).chain(standstill).chain(order);
    let all = all.chain(lists).chain(pairs).chain(gate).map(named);
    for (slip, found) in all.chain(reader).chain(taker) {
        all_found &= found.is_some();
        println!("{slip}: {}", found.unwrap_or("not found".to_string()));
    }
    if all_found {
        ExitCode::SUCCESS
    } else {
        ExitCode::FAILURE
    }
}

fn caught(slip: Slip, seed: u64) -> Option<String> {
    let b = typed::tempting(&mut Rng::new(seed), slip);
    let truth = verify(&b);
    if truth.number == 0 || slip.verify(&b).number != 0 {
        return None;
    }
    let (schedule, (step, fault)) = (0..SCHEDULES)
        .filter_map(|s| Some((s, fault(&b, s)?)))
        .find(|&(_, (_, fault))| Some(fault) == slip.fault())?;
    Some(format!(
        "seed {seed} {truth}, schedule {schedule} step {step} fault {fault}"
    ))
}

/// The first fault of the true machine on this schedule.
fn fault(b: &[u8], seed: u64) -> Option<(usize, u8)> {
    let bundle = Bundle::open_with_code(b).ok()?;
    let mut scheduler = Scheduler::new(seed);
    let mut state = fresh(b).1;
    (1..=STEPS).find_map(|number| {
        let turn = scheduler.turn(&state);
        let given = step_in(&bundle, &mut state, turn.thread(), turn.fails());
        (answer::STACK_SHORT..=answer::COUNT_FULL)
            .contains(&given)
            .then_some((number, given))
    })
}

fn differs(slip: Slip, seed: u64) -> Option<String> {
    let b = typed::well_typed(&mut Rng::new(seed));
    if verify(&b).number != 0 {
        return None;
    }
    let (schedule, (step, slipped, truth)) =
        (0..SCHEDULES).find_map(|s| Some((s, difference(&b, slip, s)?)))?;
    Some(format!(
        "seed {seed} accepted, schedule {schedule} step {step} answers {slipped} for {truth}"
    ))
}

/// The first step where the slipped machine, run alongside, answers otherwise.
/// That it soon finds its own states foreign (18) doesn't count: any look at
/// the state would show that, and the slip should be seen at a lock.
fn difference(b: &[u8], slip: Slip, seed: u64) -> Option<(usize, u8, u8)> {
    let bundle = Bundle::open_with_code(b).ok()?;
    let mut scheduler = Scheduler::new(seed);
    let (mut state, mut slipped) = (fresh(b).1, fresh(b).1);
    (1..=STEPS)
        .find_map(|number| {
            let turn = scheduler.turn(&state);
            let (thread, fails) = (turn.thread(), turn.fails());
            let truth = step_in(&bundle, &mut state, thread, fails);
            let other = slip.step(&bundle, &mut slipped, thread, fails);
            (truth != other).then_some((number, other, truth))
        })
        .filter(|&(_, other, _)| other != answer::BAD_STATE)
}

/// A question that the slipped machine, run alongside from a random state,
/// answers otherwise.
fn misheld(slip: Slip, seed: u64) -> Option<String> {
    let mut rng = Rng::new(seed);
    let b = typed::well_typed(&mut rng);
    let bundle = Bundle::open_with_code(&b).ok()?;
    let mut state = any_state(&mut rng, &b);
    let mut slipped = state.clone();
    let mut scheduler = Scheduler::new(seed);
    (0..=HELD_STEPS).find_map(|step| {
        if step > 0 {
            let turn = scheduler.turn(&state);
            step_in(&bundle, &mut state, turn.thread(), turn.fails());
            slip.step(&bundle, &mut slipped, turn.thread(), turn.fails());
        }
        (0..=THREADS as u8).find_map(|thread| {
            let truth = held_in(&bundle, &state, thread);
            let other = slip.held(&bundle, &slipped, thread);
            let told =
                format!("seed {seed} step {step} thread {thread} has {other:?} for {truth:?}");
            (truth != other).then_some(told)
        })
    })
}

/// A step of a run of which the slipped history has something else.
fn misremembered(slip: Slip, seed: u64) -> Option<String> {
    let mut rng = Rng::new(seed);
    let b = match seed % 2 {
        0 => recurring::recurring(&mut rng).lay_out(),
        _ => sharing::sharing(&mut rng).lay_out(),
    };
    let bundle = Bundle::open_with_code(&b).ok()?;
    let mut scheduler = Scheduler::restless(seed);
    let mut state = fresh(&b).1;
    let mut history = History::default();
    (1..=STEPS).find_map(|step| {
        let turn = scheduler.turn(&state);
        let thread = turn.thread();
        let (truth, other) = (
            met_in(&bundle, &state, thread),
            slip.met(&bundle, &state, thread),
        );
        history.step_in(&bundle, &mut state, thread, turn.fails());
        let met = (truth != other).then(|| format!("meets {other:?} for {truth:?}"));
        let told = met.or_else(|| miscounted(slip, &history, thread))?;
        Some(format!("seed {seed} step {step} thread {thread} {told}"))
    })
}

fn miscounted(slip: Slip, history: &History, thread: u8) -> Option<String> {
    (0..OBJECTS as u8).find_map(|object| {
        let truth = history.numbers(thread, object);
        let other = slip.numbers(history, thread, object);
        (truth != other).then(|| format!("object {object} has {other:?} for {truth:?}"))
    })
}

/// A bundle that only the slipped verifier accepts under its levels, and a
/// schedule after which all live threads wait.
fn stopped(slip: Slip, seed: u64) -> Option<String> {
    let b = nesting::any(&mut Rng::new(seed)).lay_out();
    let bundle = Bundle::open_with_code(&b).ok()?;
    let levels = slip.levels(&bundle)?.0;
    let truth = verify_ordered(&b, &levels);
    if truth.number == 0 || slip.verify_ordered(&b, &levels).number != 0 {
        return None;
    }
    let (schedule, step) = (0..SCHEDULES).find_map(|s| Some((s, stop(&bundle, &b, s)?)))?;
    Some(format!(
        "seed {seed} levels {levels:?} {truth}, schedule {schedule} all wait after step {step}"
    ))
}

/// The step of the true machine on this schedule after which all live threads
/// wait.
fn stop(bundle: &Bundle, b: &[u8], seed: u64) -> Option<usize> {
    let mut scheduler = Scheduler::restless(seed);
    let mut state = fresh(b).1;
    (1..=STEPS).find(|_| {
        let turn = scheduler.turn(&state);
        step_in(bundle, &mut state, turn.thread(), turn.fails());
        stands_still(&next_answers(bundle, &state))
    })
}

/// A bundle and a list of levels of which the slipped verifier says something
/// else.
fn misordered(slip: Slip, seed: u64) -> Option<String> {
    inputs(seed).iter().find_map(|Input { bundle, list, .. }| {
        let (other, truth) = (
            slip.verify_ordered(bundle, list),
            verify_ordered(bundle, list),
        );
        (other != truth).then(|| format!("seed {seed} levels {list:?} {other} for {truth}"))
    })
}

/// A list that comes to something else.
fn misrun(slip: Slip, seed: u64) -> Option<String> {
    let (b, list) = lists::input(seed);
    let (other, truth) = (slip.run(&b, &list), run(&b, &list));
    let told = |ran: &Ran| match ran.verdict.number {
        0 => format!("ran {}", ran.number),
        _ => ran.verdict.to_string(),
    };
    let states = match other.state == truth.state {
        true => "the same state",
        false => "another state",
    };
    let told = format!("\"{}\" for \"{}\", {states}", told(&other), told(&truth));
    (other != truth).then(|| format!("seed {seed} {told}"))
}

/// A bundle whose pairs come out otherwise.
fn misfilled(slip: Slip, seed: u64) -> Option<String> {
    let b = unpaired(seed).bundle;
    let (mut slipped, mut true_bytes) = (b.clone(), b);
    let (other, truth) = (slip.fill(&mut slipped), fill(&mut true_bytes));
    let mut differing = slipped.iter().zip(&true_bytes);
    let bytes = match differing.position(|(a, b)| a != b) {
        Some(at) => format!("byte {at} is {} for {}", slipped[at], true_bytes[at]),
        None => "the same bytes".to_string(),
    };
    let told = format!("seed {seed} \"{other}\" for \"{truth}\", {bytes}");
    (other != truth || slipped != true_bytes).then_some(told)
}

/// A call that is answered otherwise, or for which something else is written.
fn misgated(slip: Slip, seed: u64) -> Option<String> {
    let weave = weave(seed);
    let (mut slipped, mut out) = (blank(weave.room), blank(weave.room));
    let other = slip.gate(&weave.parts.lent(), &mut slipped);
    let truth = gate(&weave.parts.lent(), &mut out);
    let told = |gated: Gated| format!("\"{}, length {}\"", gated.verdict, gated.length);
    let bytes = match slipped.iter().zip(&out).position(|(a, b)| a != b) {
        Some(at) => format!("byte {at} is {} for {}", slipped[at], out[at]),
        None => "the same bytes".to_string(),
    };
    let told = format!("seed {seed} {} for {}, {bytes}", told(other), told(truth));
    (other != truth || slipped != out).then_some(told)
}

/// A text of which the slipped reader says something else.
fn misread(slipped: fn(&[u8]) -> Answer, seed: u64) -> Option<String> {
    let (_, text) = text(seed);
    let (other, truth) = (slipped(&text), answer_of(&text));
    let text = text.escape_ascii();
    (other != truth).then(|| format!("seed {seed} {text} is \"{other}\" for \"{truth}\""))
}

/// An attribute of which the slipped taker says or writes something else.
fn mistaken(slipped: Taker, seed: u64) -> Option<String> {
    let (_, taking) = taking(seed);
    let (other, other_bytes) = taken_by(slipped, &taking, seed);
    let (truth, bytes) = taken_by(take, &taking, seed);
    if other != truth {
        return Some(format!("seed {seed} is {other:?} for {truth:?}"));
    }
    let first = other_bytes.iter().zip(bytes).position(|(&a, b)| a != b);
    first.map(|at| format!("seed {seed} {truth:?}, byte {at} is another"))
}
