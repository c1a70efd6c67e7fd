//! The input and output as bytes and text.

use crate::Turn;
use reference::machine::{fresh, step};
use reference::state::{State, Thread, Value, OBJECTS, THREADS};
use std::fmt::Write;

pub const STATE_BYTES: usize = 2_537;
pub const MAX_STEPS: usize = 4_096;
pub const BAD_INPUT: &str = "bad input\n";
/// The number of the first step in the output.
pub const FIRST_STEP: usize = 1;

/// A decoded input: mode 1 gives a state to start from.
#[derive(Clone, Debug, PartialEq, Eq)]
pub struct Input<'a> {
    pub bundle: &'a [u8],
    pub start: Option<State>,
    pub schedule: &'a [u8],
}

/// A decoded output; `fresh` is absent in mode 1.
#[derive(Clone, Debug, PartialEq, Eq)]
pub struct Output {
    pub fresh: Option<u8>,
    pub steps: Vec<Step>,
    pub state: State,
}

/// One step's line.
#[derive(Clone, Copy, Debug, PartialEq, Eq)]
pub struct Step {
    pub thread: u8,
    pub answer: u8,
    pub fails: bool,
}

/// The input for a bundle of at most 65,535 bytes.
pub fn encode_input(bundle: &[u8], start: Option<&State>, schedule: &[u8]) -> Vec<u8> {
    let mut out = (bundle.len() as u16).to_be_bytes().to_vec();
    out.extend(bundle);
    match start {
        None => out.push(0),
        Some(state) => {
            out.push(1);
            out.extend(encode_state(state));
        }
    }
    out.extend(schedule);
    out
}

/// `None` is what prints `bad input`.
pub fn decode_input(input: &[u8]) -> Option<Input<'_>> {
    let (length, rest) = input.split_first_chunk()?;
    let (bundle, rest) = rest.split_at_checked(usize::from(u16::from_be_bytes(*length)))?;
    let (&mode, rest) = rest.split_first()?;
    let (start, schedule) = match mode {
        0 => (None, rest),
        1 => {
            let (state, schedule) = rest.split_at_checked(STATE_BYTES)?;
            (Some(decode_state(state)?), schedule)
        }
        _ => return None,
    };
    (schedule.len() <= MAX_STEPS).then_some(Input {
        bundle,
        start,
        schedule,
    })
}

pub fn encode_state(state: &State) -> Vec<u8> {
    let mut out = Vec::with_capacity(STATE_BYTES);
    for thread in &state.threads {
        out.extend([u8::from(thread.live), thread.class]);
        out.extend(thread.address.to_be_bytes());
        out.push(thread.depth);
        for &value in thread.variables.iter().chain(&thread.stack) {
            out.extend(encode_value(value));
        }
    }
    out.extend(state.counts.iter().flat_map(|count| count.to_be_bytes()));
    out.push(state.objects);
    out.extend(state.classes);
    out.extend(state.fields.into_iter().flat_map(encode_value));
    out.extend(state.held.iter().flat_map(|word| word.to_be_bytes()));
    out
}

fn encode_value(value: Value) -> [u8; 5] {
    match value {
        Value::Int(i) => {
            let [a, b, c, d] = i.to_be_bytes();
            [0, a, b, c, d]
        }
        Value::Ref(object) => [1, 0, 0, 0, object],
        Value::Null => [2, 0, 0, 0, 0],
    }
}

/// A state of exactly 2,537 bytes.
pub fn decode_state(bytes: &[u8]) -> Option<State> {
    let mut rest = bytes;
    let mut state = State::EMPTY;
    for thread in &mut state.threads {
        *thread = decode_thread(&mut rest)?;
    }
    for count in &mut state.counts {
        *count = u16::from_be_bytes(take(&mut rest)?);
    }
    [state.objects] = take(&mut rest)?;
    state.classes = take(&mut rest)?;
    decode_values(&mut rest, &mut state.fields)?;
    for word in &mut state.held {
        *word = u32::from_be_bytes(take(&mut rest)?);
    }
    rest.is_empty().then_some(state)
}

fn decode_thread(rest: &mut &[u8]) -> Option<Thread> {
    let mut thread = Thread::EMPTY;
    let [live, class, high, low, depth] = take(rest)?;
    if live > 1 {
        return None;
    }
    thread.live = live == 1;
    thread.class = class;
    thread.address = u16::from_be_bytes([high, low]);
    thread.depth = depth;
    decode_values(rest, &mut thread.variables)?;
    decode_values(rest, &mut thread.stack)?;
    Some(thread)
}

fn decode_values(rest: &mut &[u8], places: &mut [Value]) -> Option<()> {
    for place in places {
        *place = decode_value(take(rest)?)?;
    }
    Some(())
}

fn decode_value(bytes: [u8; 5]) -> Option<Value> {
    match bytes {
        [0, a, b, c, d] => Some(Value::Int(i32::from_be_bytes([a, b, c, d]))),
        [1, 0, 0, 0, object] => Some(Value::Ref(object)),
        [2, 0, 0, 0, 0] => Some(Value::Null),
        _ => None,
    }
}

fn take<const N: usize>(rest: &mut &[u8]) -> Option<[u8; N]> {
    let (head, tail) = rest.split_first_chunk()?;
    *rest = tail;
    Some(*head)
}

/// The whole output that the trace program should print for this input.
pub fn run(input: &[u8]) -> String {
    match decode_input(input) {
        Some(input) => encode_output(&follow(&input)),
        None => BAD_INPUT.to_string(),
    }
}

/// Runs the schedule from the fresh or the given state.
pub fn follow(input: &Input) -> Output {
    let (fresh, mut state) = match &input.start {
        Some(state) => (None, state.clone()),
        None => {
            let (answer, state) = fresh(input.bundle);
            (Some(answer), state)
        }
    };
    let mut steps = Vec::with_capacity(input.schedule.len());
    for &byte in input.schedule {
        let (thread, fails) = (Turn(byte).thread(), Turn(byte).fails());
        let answer = step(input.bundle, &mut state, thread, fails);
        steps.push(Step {
            thread,
            answer,
            fails,
        });
    }
    Output {
        fresh,
        steps,
        state,
    }
}

pub fn encode_output(output: &Output) -> String {
    let mut text = match output.fresh {
        Some(answer) => format!("fresh {answer}\n"),
        None => "given\n".to_string(),
    };
    for (number, step) in output.steps.iter().enumerate() {
        let fails = if step.fails { " fails" } else { "" };
        let number = number + FIRST_STEP;
        let Step { thread, answer, .. } = step;
        line(
            &mut text,
            format_args!("step {number} thread {thread} answer {answer}{fails}"),
        );
    }
    text + &state_text(&output.state)
}

/// The lines of a state: its threads, objects and fields.
pub fn state_text(state: &State) -> String {
    let mut text = String::new();
    for number in 0..THREADS {
        thread_line(&mut text, number, state);
    }
    let (objects, classes) = (state.objects, spaced(&state.classes));
    line(
        &mut text,
        format_args!("objects {objects} classes {classes}"),
    );
    let fields = values_text(&state.fields);
    line(&mut text, format_args!("fields {fields}"));
    text
}

fn line(text: &mut String, content: std::fmt::Arguments) {
    writeln!(text, "{content}").expect("a string takes any text");
}

fn thread_line(text: &mut String, number: usize, state: &State) {
    let thread = &state.threads[number];
    let Thread {
        class,
        address,
        depth,
        ..
    } = thread;
    let live = u8::from(thread.live);
    let (variables, stack) = (values_text(&thread.variables), values_text(&thread.stack));
    let (counts, held) = (spaced(state.counts_of(number)), state.held[number]);
    line(
        text,
        format_args!(
            "thread {number} live {live} class {class} address {address} depth {depth} \
             vars {variables} stack {stack} counts {counts} held {held}"
        ),
    );
}

/// `i-5`, `r3`, `null`.
fn value_text(value: Value) -> String {
    match value {
        Value::Int(i) => format!("i{i}"),
        Value::Ref(object) => format!("r{object}"),
        Value::Null => "null".to_string(),
    }
}

fn values_text(values: &[Value]) -> String {
    let texts: Vec<String> = values.iter().copied().map(value_text).collect();
    texts.join(" ")
}

fn read_value(text: &str) -> Option<Value> {
    match text.split_at_checked(1)? {
        ("n", "ull") => Some(Value::Null),
        ("i", number) => Some(Value::Int(number.parse().ok()?)),
        ("r", number) => Some(Value::Ref(number.parse().ok()?)),
        _ => None,
    }
}

fn spaced<T: ToString>(items: &[T]) -> String {
    items.iter().map(T::to_string).collect::<Vec<_>>().join(" ")
}

/// Reads an output back; `None` for `bad input` and for any other text.
pub fn decode_output(text: &str) -> Option<Output> {
    let mut lines = text.strip_suffix('\n')?.split('\n').peekable();
    let fresh = match lines.next()? {
        "given" => None,
        first => Some(first.strip_prefix("fresh ")?.parse().ok()?),
    };
    let mut steps = vec![];
    while let Some(found) = lines.next_if(|l| l.starts_with("step ")) {
        steps.push(decode_step(found, steps.len() + FIRST_STEP)?);
    }
    let mut state = State::EMPTY;
    for number in 0..THREADS {
        decode_thread_line(lines.next()?, number, &mut state)?;
    }
    let mut words = Words(lines.next()?.split(' '));
    state.objects = words.field("objects")?;
    words.word("classes")?;
    words.fill(&mut state.classes)?;
    let mut fields = Words(lines.next()?.split(' '));
    fields.values("fields", &mut state.fields)?;
    let ended = words.0.next().is_none() && fields.0.next().is_none();
    (ended && lines.next().is_none()).then_some(Output {
        fresh,
        steps,
        state,
    })
}

fn decode_step(text: &str, number: usize) -> Option<Step> {
    let fails = text.ends_with(" fails");
    let mut words = Words(text.strip_suffix(" fails").unwrap_or(text).split(' '));
    let right = words.field::<usize>("step")? == number;
    let step = Step {
        thread: words.field("thread")?,
        answer: words.field("answer")?,
        fails,
    };
    (right && words.0.next().is_none()).then_some(step)
}

fn decode_thread_line(text: &str, number: usize, state: &mut State) -> Option<()> {
    let mut words = Words(text.split(' '));
    let right = words.field::<usize>("thread")? == number;
    let thread = &mut state.threads[number];
    thread.live = words.field::<u8>("live")? == 1;
    thread.class = words.field("class")?;
    thread.address = words.field("address")?;
    thread.depth = words.field("depth")?;
    words.values("vars", &mut thread.variables)?;
    words.values("stack", &mut thread.stack)?;
    words.word("counts")?;
    words.fill(&mut state.counts[number * OBJECTS..(number + 1) * OBJECTS])?;
    state.held[number] = words.field("held")?;
    (right && words.0.next().is_none()).then_some(())
}

/// The words of one line, taken one by one.
struct Words<'a>(std::str::Split<'a, char>);

impl Words<'_> {
    fn word(&mut self, wanted: &str) -> Option<()> {
        (self.0.next()? == wanted).then_some(())
    }

    /// A name and its number.
    fn field<T: std::str::FromStr>(&mut self, name: &str) -> Option<T> {
        self.word(name)?;
        self.0.next()?.parse().ok()
    }

    fn fill<T: std::str::FromStr>(&mut self, places: &mut [T]) -> Option<()> {
        for place in places {
            *place = self.0.next()?.parse().ok()?;
        }
        Some(())
    }

    fn values(&mut self, name: &str, places: &mut [Value]) -> Option<()> {
        self.word(name)?;
        for place in places {
            *place = read_value(self.0.next()?)?;
        }
        Some(())
    }
}
