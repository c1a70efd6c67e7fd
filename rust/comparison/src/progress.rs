//! Progress: of a bundle that is accepted under a lock order some live thread
//! can always take a step that doesn't wait, while one lives at all.

use crate::digest::mixed;
use crate::{proved, Differences, Part};
use generator::families::{contending, nesting, sharing, typed};
use generator::levels::doing;
use generator::rng::Rng;
use generator::schedule::Scheduler;
use reference::bundle::Bundle;
use reference::machine::{answer, fresh, step_in, State};
use reference::verify::{verify, verify_ordered};
use std::ops::AddAssign;
use trace::Turn;

/// Under a lock order one step in so many waits at least.
const STEPS_A_WAIT: u64 = 20;

#[derive(Debug, Default)]
pub struct Progress {
    /// Accepted under a lock order.
    ordered: Ran,
    /// Accepted without one, and under none.
    disordered: Ran,
    differences: Differences,
}

/// Runs, and what came up in them.
#[derive(Clone, Copy, Debug, Default)]
struct Ran {
    runs: u64,
    steps: u64,
    waits: u64,
    /// Waits of a thread that holds a lock itself.
    waits_holding: u64,
    /// States in which all live threads but one wait, of three or more.
    all_but_one: u64,
    /// Runs in which every thread ended.
    ended: u64,
    /// Runs that came to a state in which every live thread waits.
    still: u64,
}

impl AddAssign for Ran {
    fn add_assign(&mut self, other: Ran) {
        self.runs += other.runs;
        self.steps += other.steps;
        self.waits += other.waits;
        self.waits_holding += other.waits_holding;
        self.all_but_one += other.all_but_one;
        self.ended += other.ended;
        self.still += other.still;
    }
}

/// What the next step of each live thread would answer.
pub fn next_answers(bundle: &Bundle, state: &State) -> Vec<(u8, u8)> {
    let numbers = (0..).zip(&state.threads);
    let live = numbers.filter(|(_, thread)| thread.live);
    live.map(|(number, _)| {
        let given = step_in(bundle, &mut state.clone(), number, false);
        (number, given)
    })
    .collect()
}

/// Whether some thread lives and all that do wait.
pub fn stands_still(answers: &[(u8, u8)]) -> bool {
    !answers.is_empty() && waiting(answers) == answers.len()
}

fn waiting(answers: &[(u8, u8)]) -> usize {
    let waiting = answers.iter().filter(|&&(_, given)| given == answer::HELD);
    waiting.count()
}

/// One run: its schedule, the digest of its answers, and how it ended.
struct Run {
    schedule: Vec<u8>,
    digest: u64,
    next: Vec<(u8, u8)>,
    ran: Ran,
}

impl Run {
    /// At most so many steps, until no thread lives or all that do wait.
    fn follow(bytes: &[u8], mut scheduler: Scheduler, steps: usize) -> Run {
        let bundle = Bundle::open_with_code(bytes).expect("it is accepted");
        let (first, mut state) = fresh(bytes);
        let mut run = Run {
            schedule: vec![],
            digest: u64::from(first),
            next: next_answers(&bundle, &state),
            ran: Ran {
                runs: 1,
                ..Ran::default()
            },
        };
        while run.schedule.len() < steps && !run.next.is_empty() && !stands_still(&run.next) {
            let turn = scheduler.turn(&state);
            let given = step_in(&bundle, &mut state, turn.thread(), turn.fails());
            run.next = next_answers(&bundle, &state);
            run.note(turn, given, &state);
        }
        run.ran.ended = u64::from(run.next.is_empty());
        run.ran.still = u64::from(stands_still(&run.next));
        run
    }

    fn note(&mut self, turn: Turn, given: u8, state: &State) {
        self.schedule.push(turn.0);
        self.digest = mixed(self.digest, given);
        self.ran.steps += 1;
        if given == answer::HELD {
            self.ran.waits += 1;
            let holds = state.number_held(usize::from(turn.thread())) > 0;
            self.ran.waits_holding += u64::from(holds);
        }
        let edge = self.next.len() > 2 && waiting(&self.next) + 1 == self.next.len();
        self.ran.all_but_one += u64::from(edge);
    }

    /// What the proved machine answers otherwise: to the schedule, or to a
    /// next step of a thread that lives then.
    fn difference(&self, bytes: &[u8]) -> Option<String> {
        let proved = proved::digest(bytes, &self.schedule);
        let digest = self.digest;
        if proved != digest {
            return Some(format!("proved digest {proved}, reference {digest}"));
        }
        self.next.iter().find_map(|&(thread, given)| {
            let longer = [&self.schedule[..], &[thread]].concat();
            let other = proved::digest(bytes, &longer) != mixed(digest, given);
            other.then(|| format!("the next step of thread {thread} is not answered {given}"))
        })
    }
}

/// Threads that want the same locks, several of them at once.
fn bundle(rng: &mut Rng) -> Vec<u8> {
    match rng.below(16) {
        0..=8 => nesting::orderly(rng).lay_out(),
        9..=12 => nesting::any(rng).lay_out(),
        13 => contending::contending(rng).lay_out(),
        14 => sharing::sharing(rng).lay_out(),
        _ => typed::well_typed(rng),
    }
}

impl Progress {
    fn differ(&mut self, seed: u64, what: &str, inputs: &[&[u8]]) {
        let what = format!("progress seed {seed}: {what}");
        self.differences.add(what, inputs);
    }

    /// Whether both sides accept it under levels that do.
    fn is_ordered(&mut self, rng: &mut Rng, bytes: &[u8], seed: u64) -> bool {
        let Some((levels, _)) = doing(rng, bytes) else {
            return false;
        };
        let (proved, reference) = (
            proved::ordered(bytes, &levels),
            verify_ordered(bytes, &levels),
        );
        if (proved.number, reference.number) != (0, 0) {
            let what = format!("proved {proved:?}, reference {reference:?}");
            self.differ(seed, &what, &[bytes, &levels]);
        }
        true
    }

    fn named(&self) -> [(&'static str, u64); 8] {
        let (ordered, disordered) = (&self.ordered, &self.disordered);
        let enough = ordered.waits * STEPS_A_WAIT >= ordered.steps;
        [
            ("runs under a lock order", ordered.runs),
            (
                "waits under a lock order, one step in twenty",
                if enough { ordered.waits } else { 0 },
            ),
            ("waits of a thread that holds a lock", ordered.waits_holding),
            ("states in which all but one wait", ordered.all_but_one),
            ("runs in which every thread ended", ordered.ended),
            ("runs under no lock order", disordered.runs),
            ("waits under none", disordered.waits),
            ("runs that stand still under none", disordered.still),
        ]
    }
}

impl Part for Progress {
    fn generated(&mut self, seed: u64) {
        let mut rng = Rng::new(seed ^ 0x5713_0000_0000_0000);
        let bytes = bundle(&mut rng);
        if verify(&bytes).number > 0 {
            return;
        }
        let ordered = self.is_ordered(&mut rng, &bytes, seed);
        let scheduler = match rng.chance(1, 4) {
            true => Scheduler::new(rng.number()),
            false => Scheduler::restless(rng.number()),
        };
        let run = Run::follow(&bytes, scheduler, rng.between(50, 400));
        if let Some(difference) = run.difference(&bytes) {
            self.differ(seed, &difference, &[&bytes, &run.schedule]);
        }
        if ordered && run.ran.still > 0 {
            self.differ(seed, "every live thread waits", &[&bytes, &run.schedule]);
        }
        match ordered {
            true => self.ordered += run.ran,
            false => self.disordered += run.ran,
        }
    }

    fn print(&self) {
        let (ordered, disordered) = (&self.ordered, &self.disordered);
        println!(
            "runs under lock orders {}, {} steps, {} of them waits, {} stand still",
            ordered.runs, ordered.steps, ordered.waits, ordered.still
        );
        println!(
            "  under none {}, {} steps, {} of them waits, {} stand still",
            disordered.runs, disordered.steps, disordered.waits, disordered.still
        );
        for (what, count) in self.named() {
            println!("  {what}: {count}");
        }
        println!("  differences: {}", self.differences.0);
    }

    fn differences(&self) -> u64 {
        self.differences.0
    }

    fn seen(&self) -> Vec<(String, u64)> {
        let named = self.named().into_iter();
        named
            .map(|(what, count)| (what.to_string(), count))
            .collect()
    }
}
