//! What is told of a run.

use super::step::{Step, COLUMNS};
use hveitmar::{Answer, Held};
use listing::{columns, Program};
use reference::history::{Event, History, Numbers};
use reference::instructions::Instr;
use reference::machine::{State, Thread};
use reference::met::Met;
use std::fmt::{self, Display, Formatter};
use std::io::Error;
use trace::{decode_output, encode_input, encode_state, Turn};

/// The steps of a run, told one by one, and what lives at its end.
pub struct Story {
    steps: Vec<Vec<String>>,
    living: Vec<String>,
}

/// The proved machine with a bundle.
struct Machine<'a> {
    program: trace::Program,
    bundle: &'a [u8],
}

impl Machine<'_> {
    /// The answer to a step from this state, and the next state; without a
    /// turn, the fresh machine's.
    fn run(&self, from: Option<(&State, Turn)>) -> Result<(Answer, State), Error> {
        let (state, turns) = match from {
            Some((state, turn)) => (Some(state), vec![turn.0]),
            None => (None, vec![]),
        };
        let text = self
            .program
            .run(&encode_input(self.bundle, state, &turns))?;
        let output = decode_output(&text).ok_or_else(|| Error::other("no trace came back"))?;
        let number = output.steps.first().map(|step| step.answer);
        let answer = number.or(output.fresh).and_then(Answer::from_number);
        let answer = answer.ok_or_else(|| Error::other("no answer came back"))?;
        Ok((answer, output.state))
    }

    /// How many objects the thread holds, if it lives.
    fn number_held(&self, state: &State, thread: u8) -> Result<Option<u8>, Error> {
        match hveitmar::held(self.bundle, &encode_state(state), thread) {
            Held::Objects(number) => Ok(Some(number)),
            Held::Refused(Answer::NotLive) => Ok(None),
            other => Err(Error::other(format!("no number held came back: {other:?}"))),
        }
    }

    /// The step behind these turns, as the history has it.
    fn event(&self, before: &[u8], turn: Turn, answer: Answer) -> Event {
        let met = hveitmar::meets(self.bundle, before, turn.thread());
        let read = |met: hveitmar::Met| {
            let [high, low] = met.address.to_be_bytes();
            Met {
                instr: Instr::read([met.opcode, met.operand, high, low]),
                object: met.object,
            }
        };
        Event {
            thread: turn.thread(),
            answer: answer.number(),
            met: met.map(read),
        }
    }

    /// A line for each thread that lives, and one for each object that it holds.
    fn living(&self, state: &State, history: &History) -> Result<Vec<String>, Error> {
        let mut lines = vec![];
        for (number, thread) in state.threads.iter().enumerate() {
            if let Some(held) = self.number_held(state, number as u8)? {
                let Thread { class, address, .. } = thread;
                let held = held_text(held);
                lines.push(format!(
                    "thread {number} at address {address} of class {class} holds {held}"
                ));
                lines.extend(locks(state, number, history)?);
            }
        }
        Ok(lines)
    }
}

impl Story {
    /// Of the schedule on this bundle, from the fresh machine.
    pub fn of(bundle: &[u8], turns: &[Turn]) -> Result<Story, Error> {
        let program = trace::Program::find()?;
        let machine = Machine { program, bundle };
        let listed = Program::new(bundle);
        let (_, mut state) = machine.run(None)?;
        let schedule: Vec<u8> = turns.iter().map(|turn| turn.0).collect();
        let (mut steps, mut history) = (vec![], History::default());
        for (number, &turn) in turns.iter().enumerate() {
            let (answer, next) = machine.run(Some((&state, turn)))?;
            let step = Step {
                program: &listed,
                state: &state,
                turn,
                answer,
                holds: machine.number_held(&next, turn.thread())?,
            };
            steps.push(step.told(number + 1));
            history.add(machine.event(&schedule[..number], turn, answer));
            state = next;
        }
        let living = machine.living(&state, &history)?;
        Ok(Story { steps, living })
    }
}

fn held_text(number: u8) -> String {
    match number {
        0 => "nothing".to_string(),
        1 => "1 object:".to_string(),
        number => format!("{number} objects:"),
    }
}

/// A line for each object that a thread holds: how often it took the lock and
/// gave it back since it started, by the history, and the machine's count.
fn locks(state: &State, thread: usize, history: &History) -> Result<Vec<String>, Error> {
    let counts = state.counts_of(thread).iter().enumerate();
    counts
        .filter(|(_, &count)| count > 0)
        .map(|(object, count)| {
            let numbers = history.numbers(thread as u8, object as u8);
            let unknown = || Error::other(format!("no step started thread {thread}"));
            let Numbers { entered, left } = numbers.ok_or_else(unknown)?;
            let taken = times(entered);
            Ok(format!(
                "  object {object}: taken {taken}, given back {left}, count {count}"
            ))
        })
        .collect()
}

fn times(number: usize) -> String {
    match number {
        1 => "once".to_string(),
        number => format!("{number} times"),
    }
}

impl Display for Story {
    fn fmt(&self, to: &mut Formatter) -> fmt::Result {
        let heading = COLUMNS.map(String::from).to_vec();
        let lines: Vec<Vec<String>> = [heading].into_iter().chain(self.steps.clone()).collect();
        writeln!(to, "{}", columns(&lines))?;
        match self.living.is_empty() {
            true => writeln!(to, "no thread lives"),
            false => writeln!(to, "{}", self.living.join("\n")),
        }
    }
}
