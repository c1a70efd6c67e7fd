//! The history of each run held against its counts: who lives, and how often
//! each of their locks was taken and given back.

use crate::Differences;
use generator::rng::Rng;
use reference::bundle::{Bundle, Instr};
use reference::history::{Event, History, Numbers};
use reference::machine::{answer, fresh, State};
use reference::state::{OBJECTS, THREADS};
use trace::Turn;

#[derive(Debug, Default)]
pub struct Histories {
    /// Live threads, each with all of its objects.
    threads: u64,
    /// Counts above zero, and above one.
    held: u64,
    held_again: u64,
    /// Locks that were given back, all of them, since the thread started.
    free_again: u64,
    /// Numbers that had a thread before, and locks that this one had taken.
    started_again: u64,
    taken_before: u64,
    /// Waits, and null caught, of a thread that lives.
    waits: u64,
    nulls: u64,
}

/// How often each count rose and fell since its thread began: told by the
/// states, without a look at instructions.
struct Moves([[Numbers; OBJECTS]; THREADS]);

const NONE: Numbers = Numbers {
    entered: 0,
    left: 0,
};

impl Moves {
    fn watch(&mut self, before: &State, after: &State) {
        for (thread, moves) in self.0.iter_mut().enumerate() {
            if !before.threads[thread].live && after.threads[thread].live {
                *moves = [NONE; OBJECTS];
            }
            let counts = before.counts_of(thread).iter().zip(after.counts_of(thread));
            for (numbers, (before, after)) in moves.iter_mut().zip(counts) {
                numbers.entered += usize::from(after > before);
                numbers.left += usize::from(after < before);
            }
        }
    }
}

/// A run so far.
struct Run {
    state: State,
    history: History,
    moves: Moves,
}

impl Run {
    fn step(&mut self, bundle: &Bundle, turn: Turn) {
        let before = self.state.clone();
        self.history
            .step_in(bundle, &mut self.state, turn.thread(), turn.fails());
        self.moves.watch(&before, &self.state);
    }

    /// What the history tells otherwise than the states.
    fn difference(&self) -> Option<String> {
        let places = (0..THREADS).flat_map(|t| (0..OBJECTS).map(move |o| (t, o)));
        places.into_iter().find_map(|(thread, object)| {
            let told = self.history.numbers(thread as u8, object as u8);
            let live = self.state.threads[thread].live;
            let moved = live.then_some(self.moves.0[thread][object]);
            let count = self.state.count(thread, object);
            let agree = told.is_none_or(|n| n.entered == n.left + usize::from(count));
            (told != moved || !agree).then(|| {
                format!("thread {thread} object {object}: history {told:?}, moves {moved:?}, count {count}")
            })
        })
    }
}

impl Histories {
    /// The run of this schedule, at some step and at its end.
    pub fn add(&mut self, bundle: &[u8], schedule: &[u8], seed: u64, to: &mut Differences) {
        let Ok(opened) = Bundle::open_with_code(bundle) else {
            return;
        };
        let mut run = Run {
            state: fresh(bundle).1,
            history: History::default(),
            moves: Moves([[NONE; OBJECTS]; THREADS]),
        };
        let cut = Rng::new(seed).below(schedule.len() + 1);
        for (steps, &byte) in schedule.iter().enumerate() {
            if steps == cut {
                self.compare(&run, bundle, &schedule[..steps], seed, to);
            }
            run.step(&opened, Turn(byte));
        }
        self.compare(&run, bundle, schedule, seed, to);
    }

    fn compare(
        &mut self,
        run: &Run,
        bundle: &[u8],
        schedule: &[u8],
        seed: u64,
        to: &mut Differences,
    ) {
        if let Some(difference) = run.difference() {
            let what = format!("history of the schedule of seed {seed}: {difference}");
            to.add(what, &[bundle, schedule]);
        }
        for thread in 0..THREADS as u8 {
            if let Some(since) = run.history.since_start(thread) {
                self.count(&run.history, thread, since);
            }
        }
    }

    fn count(&mut self, history: &History, thread: u8, since: &[Event]) {
        let earlier = &history.events()[..history.events().len() - since.len()];
        let own = |events: &[Event], is: fn(&Event) -> bool| {
            let own = events.iter().filter(|event| event.thread == thread);
            own.filter(|event| is(event)).count() as u64
        };
        self.threads += 1;
        self.started_again += u64::from(own(earlier, ends) > 0);
        self.taken_before += u64::from(own(earlier, takes) > 0);
        self.waits += own(since, waits);
        self.nulls += own(since, catches_null);
        for object in 0..OBJECTS as u8 {
            let Numbers { entered, left } = history.numbers(thread, object).unwrap_or(NONE);
            self.held += u64::from(entered > left);
            self.held_again += u64::from(entered > left + 1);
            self.free_again += u64::from(entered > 0 && entered == left);
        }
    }

    /// Each with its name.
    pub fn named(&self) -> [(&'static str, u64); 8] {
        [
            ("live threads with a history", self.threads),
            ("locks held by the history", self.held),
            ("locks held more than once by it", self.held_again),
            ("locks taken and all given back by it", self.free_again),
            ("numbers started again", self.started_again),
            (
                "numbers whose earlier thread had taken a lock",
                self.taken_before,
            ),
            ("waits in a live thread's history", self.waits),
            (
                "monitorenters on null, caught, in a live thread's history",
                self.nulls,
            ),
        ]
    }
}

fn ends(event: &Event) -> bool {
    matches!(event.answer, answer::RETURNED | answer::UNCAUGHT)
}

/// A monitorenter that went on, and whether it met an object.
fn entered(event: &Event) -> Option<bool> {
    let met = event.met.filter(|m| matches!(m.instr, Instr::Enter(..)))?;
    (event.answer == answer::WENT_ON).then_some(met.object.is_some())
}

fn takes(event: &Event) -> bool {
    entered(event) == Some(true)
}

fn catches_null(event: &Event) -> bool {
    entered(event) == Some(false)
}

fn waits(event: &Event) -> bool {
    event.answer == answer::HELD
}
