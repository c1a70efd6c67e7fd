//! The proved machine on what is taken from a method.

use crate::method::{Method, THING, THROWABLE, VARIABLES};
use generator::rng::Rng;
use reference::state::{State, Value, OBJECTS};
use std::io::Error;
use trace::{decode_output, encode_input, Program};

/// The classes of the bundle, in their order: the method's own, and that of
/// what can be thrown.
pub const CLASSES: [u16; 2] = [THING, THROWABLE];
const THINGS: u8 = 0;
const THROWN: u8 = 1;

/// All variables and stack places that a record may have.
const PLACES: u8 = 16;
/// So many bytes a row has with them; the machine reads none of it.
const ROW: usize = 2 * 4 * PLACES as usize + 1;

/// A bundle of two classes: the first has these instructions, the second one
/// return.
fn bundle(instructions: &[u8]) -> Vec<u8> {
    let count = instructions.len() / 4;
    let mut bytes = instructions.to_vec();
    bytes.resize(bytes.len() + count * ROW, 0);
    let second = (bytes.len() as u16).to_be_bytes();
    // return, and a row with nothing but its depth.
    bytes.extend([12, 0, 0, 0, 0]);
    let directory = (bytes.len() as u16).to_be_bytes();
    let code = (count as u16).to_be_bytes();
    bytes.extend([0, 0, 0, PLACES, PLACES, 0, code[0], code[1]]);
    bytes.extend([second[0], second[1], 0, 0, 0, 0, 0, 1]);
    let length = (bytes.len() as u16 + 8).to_be_bytes();
    bytes.extend([
        directory[0],
        directory[1],
        2,
        THROWN,
        length[0],
        length[1],
        0x4C,
        0x4B,
    ]);
    bytes
}

/// The machine, and what it has come to.
pub struct Machine {
    program: Program,
    bundle: Vec<u8>,
    pub state: State,
}

impl Machine {
    /// With these arguments in the variables; none where the method isn't taken.
    pub fn new(
        method: &Method,
        arguments: &[Value],
        state: State,
    ) -> Result<Option<Machine>, Error> {
        let mut out = [0; 4 * hveitmar::MOST_TAKEN];
        let Ok(count) = hveitmar::take(&method.attribute(), &CLASSES, &mut out) else {
            return Ok(None);
        };
        let mut state = state;
        let thread = &mut state.threads[0];
        (thread.live, thread.address) = (true, 1);
        thread.variables[..arguments.len()].copy_from_slice(arguments);
        Ok(Some(Machine {
            program: Program::find()?,
            bundle: bundle(&out[..4 * count]),
            state,
        }))
    }

    /// One step of the only thread; gives its answer.
    pub fn step(&mut self) -> Result<u8, Error> {
        let input = encode_input(&self.bundle, Some(&self.state), &[0]);
        let text = self.program.run(&input)?;
        let output = decode_output(&text).ok_or_else(|| Error::other(text.clone()))?;
        let step = output
            .steps
            .first()
            .ok_or_else(|| Error::other("no step"))?;
        self.state = output.state;
        Ok(step.answer)
    }

    pub fn address(&self) -> u32 {
        u32::from(self.state.threads[0].address)
    }

    pub fn is_full(&self) -> bool {
        usize::from(self.state.objects) == OBJECTS
    }

    /// What a probe sees: variables, stack, and what is held.
    pub fn seen(&self) -> String {
        let thread = &self.state.threads[0];
        let variables = &thread.variables[..VARIABLES.len()];
        let stack = &thread.stack[..usize::from(thread.depth)];
        let held = (0..)
            .zip(self.state.counts_of(0))
            .filter(|(_, &count)| count > 0);
        let held = held.map(|(object, _)| Value::Ref(object));
        let held: Vec<Value> = held.collect();
        let text = |values: &[Value]| values.iter().map(|&value| word(value)).collect::<String>();
        format!("{} |{} |{}", text(variables), text(stack), text(&held))
    }
}

fn word(value: Value) -> String {
    match value {
        Value::Int(number) => format!(" i{number}"),
        Value::Ref(object) => format!(" r{object}"),
        Value::Null => " null".to_string(),
    }
}

/// Arguments as the machine has them and in the words of the Java side, and a
/// state with their objects: object 0, and then each as it comes up.
pub fn arguments(rng: &mut Rng) -> (Vec<Value>, String, State) {
    let mut state = State::EMPTY;
    (state.objects, state.classes[0]) = (1, THROWN);
    let mut values = vec![];
    let mut words = vec![];
    for variable in 0..VARIABLES.len() {
        let (value, text) = match variable {
            0..=2 => {
                let number = rng.pick(&[0, 0, 1, -1, -2, -3, i32::MAX, i32::MIN]);
                (Value::Int(number), number.to_string())
            }
            3..=5 if rng.chance(1, 4) => (Value::Null, "null".to_string()),
            3..=5 => (made(&mut state, THINGS), "thing".to_string()),
            _ => (made(&mut state, THROWN), "thrown".to_string()),
        };
        values.push(value);
        words.push(text);
    }
    (values, words.join(","), state)
}

fn made(state: &mut State, class: u8) -> Value {
    let object = state.objects;
    state.classes[usize::from(object)] = class;
    state.objects += 1;
    Value::Ref(object)
}
