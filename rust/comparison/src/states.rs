//! The state after every step of a run: each step is given to the trace
//! program with the state before it, and the state that it prints is compared.

use crate::{Answers, Differences, Part};
use generator::families::{self, contending, sharing, typed};
use generator::lively::Lively;
use generator::rng::Rng;
use generator::schedule::{any_state, Scheduler};
use reference::bundle::MAX_LENGTH;
use reference::machine::{answer, fresh, State};
use std::io::Error;
use trace::{encode_input, encode_output, follow, Input, Program};

/// Each step starts a process, so runs are short.
const STEPS: usize = 24;

#[derive(Debug)]
pub struct States {
    program: Program,
    runs: u64,
    steps: u64,
    /// Steps that left another state than they found.
    changes: u64,
    answers: Answers,
    differences: Differences,
}

impl States {
    /// An error where there is no trace program to compare with.
    pub fn with_program() -> Result<States, Error> {
        Ok(States {
            program: Program::find()?,
            runs: 0,
            steps: 0,
            changes: 0,
            answers: Answers::default(),
            differences: Differences::default(),
        })
    }

    /// One step from this state; gives the state after it.
    fn step(&mut self, bundle: &[u8], state: State, turn: u8, seed: u64) -> State {
        let given = encode_input(bundle, Some(&state), &[turn]);
        let input = Input {
            bundle,
            start: Some(state),
            schedule: &[turn],
        };
        let output = follow(&input);
        let proved = self.program.run(&given);
        let proved = proved.unwrap_or_else(|error| error.to_string());
        if proved != encode_output(&output) {
            let what = format!("step of the run of seed {seed}");
            self.differences.add(what, &[&given]);
        }
        self.steps += 1;
        self.changes += u64::from(input.start.as_ref() != Some(&output.state));
        self.answers.add(output.steps[0].answer);
        output.state
    }
}

/// A bundle, a state of it, and a schedule from there.
fn run(seed: u64) -> (Vec<u8>, State, Vec<u8>) {
    let mut rng = Rng::new(seed ^ 0x57A7_E000_0000_0000);
    let mut bundle = match rng.below(5) {
        0 => contending::contending(&mut rng).lay_out(),
        1 => sharing::sharing(&mut rng).lay_out(),
        2 => families::bundle(seed).1,
        _ => typed::well_typed(&mut rng),
    };
    // The two bytes of the program's input can't tell a greater length.
    bundle.truncate(MAX_LENGTH);
    let state = match rng.chance(1, 4) {
        true => any_state(&mut rng, &bundle),
        false => fresh(&bundle).1,
    };
    let scheduler = Scheduler::new(rng.number());
    let run = Lively::follow(&mut rng, &bundle, state.clone(), scheduler, STEPS);
    (bundle, state, run.schedule)
}

impl Part for States {
    fn generated(&mut self, seed: u64) {
        let (bundle, mut state, schedule) = run(seed);
        for turn in schedule {
            state = self.step(&bundle, state, turn, seed);
        }
        self.runs += 1;
    }

    fn print(&self) {
        println!(
            "runs compared state by state {}, {} steps, {} of them changes",
            self.runs, self.steps, self.changes
        );
        println!("  steps by answer: {}", self.answers.text());
        println!("  differences: {}", self.differences.0);
    }

    fn differences(&self) -> u64 {
        self.differences.0
    }

    fn seen(&self) -> Vec<(String, u64)> {
        let mut seen = self.answers.seen(answer::WENT_ON..=answer::UNCAUGHT);
        seen.push(("a state changed by a step".to_string(), self.changes));
        seen
    }
}
