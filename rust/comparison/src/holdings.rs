//! The question how many objects a thread holds: of states that runs reach, of
//! random and damaged ones, and of bytes that are no state.

use crate::words::WrongWords;
use crate::{proved, Answers, Differences, Part};
use generator::families::{self, contending, sharing, typed};
use generator::rng::Rng;
use generator::schedule::{any_state, valid_state, Scheduler};
use generator::words::break_word;
use reference::bundle::Bundle;
use reference::machine::{answer, fresh, held, step_in, State};
use reference::state::{OBJECTS, THREADS};
use std::collections::BTreeMap;
use trace::{decode_state, encode_state, Turn, STATE_BYTES};

/// A run is asked after each of so many steps.
const STEPS: usize = 24;
/// One state in so many is asked of every thread number that there can be.
const STATES_A_FULL_QUESTION: usize = 32;

#[derive(Debug, Default)]
pub struct Holdings {
    states: u64,
    questions: u64,
    answers: Answers,
    /// Answers 0, by the number that comes with them.
    numbers: BTreeMap<u8, u64>,
    /// Steps of a run after which the number was another than before.
    moved: u64,
    words: WrongWords,
    /// 18, of a number that is no live thread's: 5 comes behind it.
    foreign_first: u64,
    /// Numbers that no thread has: all, and those that no turn can name.
    beyond: u64,
    far_beyond: u64,
    not_states: NotStates,
    differences: Differences,
}

/// Bytes that are no state.
#[derive(Debug, Default)]
struct NotStates {
    short: u64,
    long: u64,
    /// As many as a state has.
    wrong: u64,
}

impl Holdings {
    /// One question; gives the reference's answer.
    fn ask(&mut self, bundle: &[u8], bytes: &[u8], thread: u8, seed: u64) -> Option<(u8, u8)> {
        let state = decode_state(bytes);
        let reference = state.as_ref().map(|state| held(bundle, state, thread));
        let proved = proved::held(bundle, bytes, thread);
        if proved != reference {
            let what = format!(
                "held seed {seed} thread {thread}: proved {proved:?}, reference {reference:?}"
            );
            self.differences.add(what, &[bundle, bytes, &[thread]]);
        }
        self.questions += 1;
        match (&state, reference) {
            (Some(state), Some(given)) => self.count(state, thread, given),
            _ => self.not_states.add(bytes),
        }
        reference
    }

    fn count(&mut self, state: &State, thread: u8, (given, number): (u8, u8)) {
        let found = state.threads.get(usize::from(thread));
        let live = found.is_some_and(|thread| thread.live);
        self.answers.add(given);
        if given == answer::WENT_ON {
            *self.numbers.entry(number).or_default() += 1;
        }
        self.foreign_first += u64::from(given == answer::BAD_STATE && !live);
        self.beyond += u64::from(usize::from(thread) >= THREADS);
        self.far_beyond += u64::from(thread > Turn::HIGHEST);
    }

    /// Every thread of these bytes, and numbers that none has.
    fn ask_all(&mut self, bundle: &[u8], bytes: &[u8], rng: &mut Rng, seed: u64) {
        self.states += 1;
        let threads: Vec<u8> = match rng.chance(1, STATES_A_FULL_QUESTION) {
            true => (0..=255).collect(),
            false => {
                let beyond = [THREADS as u8, rng.byte(), 255];
                (0..THREADS as u8).chain(beyond).collect()
            }
        };
        for thread in threads {
            self.ask(bundle, bytes, thread, seed);
        }
    }

    /// The thread of each step of a run, after it, and all threads at its end.
    fn ask_run(&mut self, bundle: &[u8], mut state: State, rng: &mut Rng, seed: u64) {
        let mut scheduler = Scheduler::new(rng.number());
        if let Ok(opened) = Bundle::open_with_code(bundle) {
            for _ in 0..STEPS {
                let turn = scheduler.turn(&state);
                let before = held(bundle, &state, turn.thread());
                step_in(&opened, &mut state, turn.thread(), turn.fails());
                let after = self.ask(bundle, &encode_state(&state), turn.thread(), seed);
                let moves = |(given, number)| given == answer::WENT_ON && number != before.1;
                self.moved += u64::from(after.is_some_and(moves));
            }
        }
        self.ask_all(bundle, &encode_state(&state), rng, seed);
    }

    /// What is counted beside answers and numbers.
    fn named(&self) -> impl Iterator<Item = (String, u64)> + '_ {
        let named = [
            ("a step that moves the number", self.moved),
            ("18 where 5 would come behind it", self.foreign_first),
            ("a question of a number above 7", self.beyond),
            ("a question of a number above 15", self.far_beyond),
        ];
        named
            .into_iter()
            .chain(self.not_states.seen())
            .map(|(what, count)| (what.to_string(), count))
            .chain(self.words.seen())
    }
}

impl NotStates {
    fn add(&mut self, bytes: &[u8]) {
        match bytes.len() {
            ..STATE_BYTES => self.short += 1,
            STATE_BYTES => self.wrong += 1,
            _ => self.long += 1,
        }
    }

    fn seen(&self) -> [(&'static str, u64); 3] {
        [
            ("bytes too few for a state", self.short),
            ("bytes too many for a state", self.long),
            ("as many bytes as a state has, and none", self.wrong),
        ]
    }
}

fn bundle(rng: &mut Rng, seed: u64) -> Vec<u8> {
    match rng.below(6) {
        0 => contending::contending(rng).lay_out(),
        1 => sharing::sharing(rng).lay_out(),
        2 => families::bundle(seed).1,
        _ => typed::well_typed(rng),
    }
}

/// A state of the bundle with a wrong word, if it has any of its own.
fn wrong_word(rng: &mut Rng, bundle: &[u8]) -> State {
    let Ok(opened) = Bundle::open_with_code(bundle) else {
        return any_state(rng, bundle);
    };
    let mut state = valid_state(rng, &opened);
    break_word(rng, &mut state);
    state
}

/// Bytes of a state that few values make one: whether the first thread is live,
/// and kind and high byte of its first variable; the kind of the last thread's
/// last stack place; kind and high byte of the last field.
const TELLING: [usize; 6] = [0, 5, 6, 1_315, 2_500, 2_501];

/// Bytes cut short, too long, or with one changed.
fn damage(rng: &mut Rng, bytes: &mut Vec<u8>) {
    match rng.below(5) {
        0 => bytes.truncate(rng.below(STATE_BYTES)),
        1 => bytes.truncate(STATE_BYTES - 1),
        2 => {
            let more = rng.between(1, 40);
            bytes.extend(rng.bytes(more));
        }
        3 => bytes[rng.pick(&TELLING)] = rng.pick(&[1, 2, 3, 255]),
        _ => bytes[rng.below(STATE_BYTES)] = rng.pick(&[0, 1, 2, 3, 255]),
    }
}

impl Part for Holdings {
    fn generated(&mut self, seed: u64) {
        let mut rng = Rng::new(seed ^ 0x4E1D_0000_0000_0000);
        let bundle = bundle(&mut rng, seed);
        match rng.below(5) {
            0 => self.ask_run(&bundle, fresh(&bundle).1, &mut rng, seed),
            1 => {
                let state = any_state(&mut rng, &bundle);
                self.words.add(&bundle, &state);
                self.ask_run(&bundle, state, &mut rng, seed);
            }
            2 => {
                let mut bytes = encode_state(&any_state(&mut rng, &bundle));
                damage(&mut rng, &mut bytes);
                self.ask_all(&bundle, &bytes, &mut rng, seed);
            }
            _ => {
                let state = wrong_word(&mut rng, &bundle);
                self.words.add(&bundle, &state);
                self.ask_all(&bundle, &encode_state(&state), &mut rng, seed);
            }
        }
    }

    fn print(&self) {
        println!(
            "states asked for the number held {}, {} questions",
            self.states, self.questions
        );
        println!("  by answer: {}", self.answers.text());
        println!("  answers 0 by number: {:?}", self.numbers);
        for (what, count) in self.named() {
            println!("  {what}: {count}");
        }
        println!("  differences: {}", self.differences.0);
    }

    fn differences(&self) -> u64 {
        self.differences.0
    }

    fn seen(&self) -> Vec<(String, u64)> {
        let answers = [
            answer::WENT_ON,
            answer::NOT_LIVE,
            answer::BAD_BUNDLE,
            answer::BAD_STATE,
        ];
        let numbers = [0, 1, 2, OBJECTS as u8 - 1, OBJECTS as u8];
        let numbers = numbers.map(|number| {
            let count = self.numbers.get(&number).copied().unwrap_or(0);
            (format!("a thread that holds {number}"), count)
        });
        let answers = self.answers.seen(answers.into_iter());
        answers
            .into_iter()
            .chain(numbers)
            .chain(self.named())
            .collect()
    }
}
