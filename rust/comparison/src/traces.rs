//! The trace program's whole output held against the reference's: every
//! answer and the state at the end, from the fresh state and from any other.

use crate::words::WrongWords;
use crate::{Answers, Differences, Part};
use generator::families::{self, typed};
use generator::lively::Lively;
use generator::rng::Rng;
use generator::schedule::{any_state, Scheduler};
use reference::machine::fresh;
use std::io::Error;
use trace::{decode_input, encode_input, encode_output, follow, Program, BAD_INPUT, MAX_STEPS};

#[derive(Debug, Default)]
pub struct Traces {
    program: Program,
    inputs: u64,
    given: u64,
    bad: u64,
    answers: Answers,
    /// Of given states.
    words: WrongWords,
    differences: Differences,
}

impl Traces {
    /// An error where there is no trace program to compare with.
    pub fn with_program() -> Result<Traces, Error> {
        Ok(Traces {
            program: Program::find()?,
            ..Traces::default()
        })
    }

    /// What the reference prints; counts what kind of input it was.
    fn reference(&mut self, input: &[u8]) -> String {
        self.inputs += 1;
        let Some(input) = decode_input(input) else {
            self.bad += 1;
            return BAD_INPUT.to_string();
        };
        if let Some(state) = &input.start {
            self.given += 1;
            self.words.add(input.bundle, state);
        }
        let output = follow(&input);
        for step in &output.steps {
            self.answers.add(step.answer);
        }
        encode_output(&output)
    }
}

impl Part for Traces {
    fn generated(&mut self, seed: u64) {
        let input = input(&mut Rng::new(seed ^ 0x7ACE_0000_0000_0000), seed);
        let reference = self.reference(&input);
        let proved = self
            .program
            .run(&input)
            .unwrap_or_else(|error| error.to_string());
        if proved != reference {
            let lines = proved.lines().zip(reference.lines());
            let first = lines.into_iter().find(|(a, b)| a != b);
            let what = format!("trace seed {seed}: first line (proved, reference) {first:?}");
            self.differences.add(what, &[&input]);
        }
    }

    fn print(&self) {
        println!(
            "trace inputs {} ({} with a given state, {} bad)",
            self.inputs, self.given, self.bad
        );
        println!("  steps by answer: {}", self.answers.text());
        for (what, count) in self.words.seen_by_thread() {
            println!("  {what}: {count}");
        }
        println!("  differences: {}", self.differences.0);
    }

    fn differences(&self) -> u64 {
        self.differences.0
    }

    fn seen(&self) -> Vec<(String, u64)> {
        let mut seen = self.answers.seen((0..=5).chain(11..=18));
        seen.push(("a given state".to_string(), self.given));
        seen.push(("bad input".to_string(), self.bad));
        seen.extend(self.words.seen_by_thread());
        seen
    }
}

fn input(rng: &mut Rng, seed: u64) -> Vec<u8> {
    let bundle = match rng.chance(1, 3) {
        true => families::bundle(seed).1,
        false => typed::well_typed(rng),
    };
    let start = rng.chance(2, 3).then(|| any_state(rng, &bundle));
    let steps = match rng.below(40) {
        0..=9 => MAX_STEPS - rng.below(3),
        10..=14 => rng.below(3),
        _ => rng.below(150),
    };
    let begin = start.clone().unwrap_or_else(|| fresh(&bundle).1);
    let scheduler = Scheduler::new(rng.number());
    let turns = Lively::follow(rng, &bundle, begin, scheduler, steps).schedule;
    let mut input = encode_input(&bundle, start.as_ref(), &turns);
    if rng.chance(1, 8) {
        damage(rng, &mut input, bundle.len());
    }
    input
}

/// Input cut short, too long, or with a byte changed behind the bundle.
fn damage(rng: &mut Rng, input: &mut Vec<u8>, bundle: usize) {
    match rng.below(6) {
        0 => input.truncate(rng.below(input.len())),
        1 => input.truncate(rng.below(4)),
        2 => input.extend(rng.bytes(MAX_STEPS)),
        _ => {
            let mode = (2 + bundle).min(input.len() - 1);
            let at = rng.between(mode, input.len() - 1);
            input[rng.pick(&[mode, at, at, at])] = rng.pick(&[0, 1, 2, 255]);
        }
    }
}
