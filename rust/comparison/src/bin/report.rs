//! Counts what the generator gives, and tests the reference on itself: what
//! the verifier accepts never faults, whatever the schedule. Random states
//! show that every answer of the machine comes up.
//!
//! `report [bundles] [first seed]`

use comparison::whys::Whys;
use generator::families;
use generator::rng::Rng;
use generator::schedule::{any_state, Scheduler};
use reference::bundle::Bundle;
use reference::machine::{fresh, step, step_in, State};
use reference::verify::verify;

/// No count passes this in an accepted bundle: 32 places of 63 each.
const COUNT_BOUND: u16 = 2_016;
const STEPS: usize = 250;

#[derive(Default)]
struct Figures {
    verdicts: [u64; 11],
    whys: Whys,
    answers: [u64; 6],
    /// Answers from random states of any bundle.
    answers_anywhere: [u64; 19],
    ended: u64,
    highest_count: u16,
    bytes: usize,
}

fn main() {
    let mut arguments = std::env::args()
        .skip(1)
        .map(|a| a.parse::<u64>().expect("a number"));
    let bundles = arguments.next().unwrap_or(200_000);
    let first = arguments.next().unwrap_or(0);
    let mut figures = Figures::default();
    for seed in first..first + bundles {
        figures.add(seed);
    }
    figures.print(bundles);
}

impl Figures {
    fn add(&mut self, seed: u64) {
        let (_, b) = families::bundle(seed);
        let verdict = verify(&b);
        self.bytes += b.len();
        self.verdicts[usize::from(verdict.number)] += 1;
        self.whys.add(&b, verdict);
        if verdict.number == 0 {
            self.run_accepted(&b, seed);
        }
        self.step_anywhere(&b, seed);
    }

    /// One step of each thread number from a random state.
    fn step_anywhere(&mut self, b: &[u8], seed: u64) {
        let mut rng = Rng::new(!seed);
        let state = any_state(&mut rng, b);
        for thread in 0..9 {
            let fails = rng.chance(1, 4);
            let mut next = state.clone();
            let answer = step(b, &mut next, thread, fails);
            assert!(
                answer <= 2 || next == state,
                "seed {seed}: {answer} changes the state"
            );
            self.answers_anywhere[usize::from(answer)] += 1;
        }
    }

    fn run_accepted(&mut self, b: &[u8], seed: u64) {
        let bundle = Bundle::open_with_code(b).expect("it is accepted");
        let mut scheduler = Scheduler::new(seed);
        let (_, mut state) = fresh(b);
        for _ in 0..STEPS {
            let turn = scheduler.turn(&state);
            let answer = step_in(&bundle, &mut state, turn.thread(), turn.fails());
            assert!(
                answer <= 5,
                "seed {seed}: an accepted bundle answers {answer}"
            );
            self.answers[usize::from(answer)] += 1;
            self.check(&state, seed);
            if state.threads.iter().all(|thread| !thread.live) {
                self.ended += 1;
                break;
            }
        }
    }

    /// Counts stay in bounds, and a thread that isn't live holds nothing.
    fn check(&mut self, state: &State, seed: u64) {
        let highest = state.counts.iter().copied().max().unwrap_or(0);
        assert!(highest <= COUNT_BOUND, "seed {seed}: count {highest}");
        self.highest_count = self.highest_count.max(highest);
        for (number, thread) in state.threads.iter().enumerate() {
            let holds = state.counts_of(number).iter().any(|&count| count > 0);
            assert!(
                thread.live || !holds,
                "seed {seed}: ended thread {number} holds"
            );
        }
    }

    fn print(&self, bundles: u64) {
        let share = |part: u64| 100.0 * part as f64 / bundles as f64;
        println!(
            "bundles {bundles}, {} bytes on average",
            self.bytes / bundles.max(1) as usize
        );
        for (number, &count) in self.verdicts.iter().enumerate() {
            println!("verdict {number}: {count} ({:.2} %)", share(count));
        }
        self.whys.print();
        let accepted = self.verdicts[0];
        println!("accepted: {accepted}");
        println!("answers 0..5 on accepted bundles: {:?}", self.answers);
        println!(
            "answers 0..18 from random states: {:?}",
            self.answers_anywhere
        );
        println!("runs where every thread ended: {}", self.ended);
        println!("highest count: {}", self.highest_count);
        println!("no fault, no count above {COUNT_BOUND}, no ended thread holds anything");
    }
}
