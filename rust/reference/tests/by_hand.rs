//! The cases of crates/vectors/stdin, worked out by hand from the documents:
//! its first lines say how they are written. HVEITMAR_CASES names further
//! files, joined by colons.

use reference::bundle::{find_record, Bundle, Verdict};
use reference::entries::Entry;
use reference::fill::fill;
use reference::instructions::{Instr, MAX_FIELDS};
use reference::machine::{fresh, held, step, State, Thread, Value};
use reference::state::OBJECTS;
use reference::verify::verify;
use std::collections::HashMap;

const LONGEST: usize = 65_536;
/// Names in the cases that are not the instruction's own.
const SHORT_NAMES: [(&str, u8); 2] = [("enter", 7), ("exit", 8)];

/// The words of one step, taken one by one.
struct Words<'a>(std::str::SplitWhitespace<'a>);

impl<'a> Words<'a> {
    fn new(text: &'a str) -> Words<'a> {
        Words(text.split_whitespace())
    }

    fn word(&mut self) -> &'a str {
        self.0.next().expect("a word")
    }

    fn number<T: TryFrom<i64>>(&mut self) -> T {
        let number: i64 = self.word().parse().expect("a number");
        let fits = T::try_from(number);
        fits.unwrap_or_else(|_| panic!("{number} is too large for its place"))
    }

    /// A number that may be left out, and is 0 then.
    fn last_number<T: TryFrom<i64> + Default>(&mut self) -> T {
        match self.0.clone().next() {
            Some(_) => self.number(),
            None => T::default(),
        }
    }

    fn instruction(&mut self) -> [u8; 4] {
        let name = self.word();
        let short = SHORT_NAMES.iter().find(|(short, _)| *short == name);
        let named = Instr::NAMES.iter().position(|&own| own == name);
        let opcode = match (short, named) {
            (Some(&(_, opcode)), _) => opcode,
            (None, Some(index)) => index as u8 + 1,
            (None, None) => name.parse().expect("an opcode"),
        };
        let operand = self.last_number();
        let [high, low] = self.last_number::<u16>().to_be_bytes();
        [opcode, operand, high, low]
    }

    fn entry(&mut self) -> [u8; 4] {
        match self.word() {
            "int" => Entry::Int.bytes(),
            "top" => Entry::Top.bytes(),
            "ref" => Entry::reference(self.number(), self.number(), self.number()).bytes(),
            "null" => Entry::Nullable {
                class: self.number(),
            }
            .bytes(),
            "raw" => std::array::from_fn(|_| self.number()),
            other => panic!("{other} is no entry"),
        }
    }

    fn value(&mut self) -> Value {
        match self.word() {
            "int" => Value::Int(self.number()),
            "ref" => Value::Ref(self.number()),
            "null" => Value::Null,
            other => panic!("{other} is no value"),
        }
    }
}

/// A bundle and a state under way, what the machine gave last, and what working
/// the pairs out gave and left.
#[derive(Clone)]
struct Case {
    bytes: Vec<u8>,
    length: usize,
    state: State,
    given: Option<(u8, State)>,
    filled: Option<(Verdict, Vec<u8>)>,
}

impl Case {
    fn blank() -> Case {
        let mut state = State::EMPTY;
        state.objects = 1;
        Case {
            bytes: vec![0; LONGEST],
            length: 0,
            state,
            given: None,
            filled: None,
        }
    }

    fn bundle(&self) -> &[u8] {
        &self.bytes[..self.length]
    }

    fn put(&mut self, at: usize, bytes: &[u8]) {
        self.bytes[at..at + bytes.len()].copy_from_slice(bytes);
    }

    /// Does a step, or says what is wrong where it is what is wanted.
    fn take(&mut self, text: &str, known: &HashMap<&str, &str>) -> Result<(), String> {
        let mut words = Words::new(text);
        let name = words.word();
        let taken = self.writes_bundle(name, &mut words)
            || self.writes_bench(name, &mut words)
            || self.writes_state(name, &mut words)
            || self.runs(name, &mut words);
        if taken {
            return Ok(());
        }
        match name {
            "bundle" => steps(known[words.word()]).try_for_each(|step| self.take(step, known)),
            _ => self.wants(name, &mut words),
        }
    }

    fn writes_bundle(&mut self, name: &str, words: &mut Words) -> bool {
        match name {
            "length" => self.length = words.number(),
            "byte" | "word" | "code" | "codes" | "rows" | "entry" | "quad" | "quads" | "bytes"
            | "trailer" => {
                let at = words.number();
                let written = written(name, words);
                self.put(at, &written);
                if matches!(name, "bytes" | "trailer") {
                    self.length = at + written.len();
                }
            }
            _ => return false,
        }
        true
    }

    /// Three classes of V 2, K 4, k 4; an address of class c is 10c + l.
    fn writes_bench(&mut self, name: &str, words: &mut Words) -> bool {
        if !matches!(name, "at" | "var" | "stack" | "depth") {
            return false;
        }
        let place: usize = words.number();
        let (class, index) = (place / 10, place % 10 - 1);
        let (code, row) = (120 * class + 9 + 4 * index, 120 * class + 25 + 25 * index);
        match name {
            "at" => self.put(code, &words.instruction()),
            "var" => {
                let v: usize = words.number();
                self.put(row + 4 * v, &words.entry());
            }
            "depth" => self.put(row + 8, &[words.number()]),
            _ => {
                let i: usize = words.number();
                self.put(row + 9 + 4 * i, &words.entry());
                self.put(row + 8, &[i as u8 + 1]);
            }
        }
        true
    }

    fn writes_state(&mut self, name: &str, words: &mut Words) -> bool {
        let state = &mut self.state;
        match name {
            "live" | "ended" => {
                let thread: &mut Thread = &mut state.threads[words.number::<usize>()];
                thread.live = name == "live";
                thread.class = words.number();
                thread.address = words.number();
                thread.depth = words.number();
            }
            "local" => {
                let (thread, v): (usize, usize) = (words.number(), words.number());
                state.threads[thread].variables[v] = words.value();
            }
            "locals" => state.threads[words.number::<usize>()]
                .variables
                .fill(words.value()),
            "place" => {
                let (thread, place): (usize, usize) = (words.number(), words.number());
                state.threads[thread].stack[place] = words.value();
            }
            "places" => state.threads[words.number::<usize>()]
                .stack
                .fill(words.value()),
            "count" => {
                let (thread, object): (usize, usize) = (words.number(), words.number());
                state.counts[thread * OBJECTS + object] = words.number();
                state.held[thread] = state.word(thread);
            }
            // Behind the thread's counts, which have given it a word that agrees.
            "held" => {
                let thread: usize = words.number();
                state.held[thread] = words.number();
            }
            "objects" => state.objects = words.number(),
            "class" => {
                let object: usize = words.number();
                state.classes[object] = words.number();
            }
            "field" => {
                let (object, number): (usize, usize) = (words.number(), words.number());
                state.fields[object * MAX_FIELDS + number] = words.value();
            }
            _ => return false,
        }
        true
    }

    fn runs(&mut self, name: &str, words: &mut Words) -> bool {
        let (thread, count, fails) = match name {
            "fresh" => {
                self.given = Some(fresh(self.bundle()));
                return true;
            }
            "fill" => {
                let mut left = self.bytes.clone();
                let verdict = fill(&mut left[..self.length]);
                self.filled = Some((verdict, left));
                return true;
            }
            "step" => (words.number(), 1, false),
            "fails" => (words.number(), 1, true),
            "steps" => (words.number(), words.number(), false),
            _ => return false,
        };
        let (mut answer, mut state) = (0, self.state.clone());
        for _ in 0..count {
            answer = step(self.bundle(), &mut state, thread, fails);
        }
        self.given = Some((answer, state));
        true
    }

    fn wants(&self, name: &str, words: &mut Words) -> Result<(), String> {
        match name {
            "verdict" => {
                let opened = Bundle::open_with_code(self.bundle());
                let found = opened.map_or_else(|v| v, |own| Verdict::new(0, own.count(), 0));
                let wanted = Verdict::new(words.number(), words.number(), words.number());
                same(found, wanted)
            }
            "judge" => {
                let wanted = Verdict::new(words.number(), words.number(), words.number());
                same(verify(self.bundle()), wanted.because(words.number()))
            }
            "record" => {
                let record = find_record(self.bundle(), words.number());
                let found = (record.len(), record.first().copied().unwrap_or(0));
                same(found, (words.number(), words.number()))
            }
            "holds" => {
                let found = held(self.bundle(), &self.state, words.number());
                same(found, (words.number(), words.number()))
            }
            "gives" => {
                let (answer, state) = self.given.as_ref().expect("a step");
                same(*answer, words.number())?;
                match *state == self.state {
                    true => Ok(()),
                    false => Err("another state".to_string()),
                }
            }
            "filled" => {
                let (verdict, left) = self.filled.as_ref().expect("pairs worked out");
                let wanted = Verdict::new(words.number(), words.number(), words.number());
                same(*verdict, wanted)?;
                match *left == self.bytes {
                    true => Ok(()),
                    false => Err("another byte".to_string()),
                }
            }
            other => panic!("{other} is no step"),
        }
    }
}

/// The bytes that a step puts at its place.
fn written(name: &str, words: &mut Words) -> Vec<u8> {
    match name {
        "byte" => vec![words.number()],
        "word" => words.number::<u16>().to_be_bytes().to_vec(),
        "code" => words.instruction().to_vec(),
        "codes" => {
            let count: usize = words.number();
            words.instruction().repeat(count)
        }
        "rows" => {
            let [v, k, count]: [usize; 3] = std::array::from_fn(|_| words.number());
            let variables = Entry::Top.bytes().repeat(v);
            [variables, vec![0; 1 + 4 * k]].concat().repeat(count)
        }
        "entry" => {
            let [high, low] = words.number::<u16>().to_be_bytes();
            let [n, v, k, fields] = std::array::from_fn(|_| words.number());
            let [code_high, code_low] = words.number::<u16>().to_be_bytes();
            vec![high, low, n, v, k, fields, code_high, code_low]
        }
        "quad" => words.entry().to_vec(),
        "quads" => {
            let count: usize = words.number();
            words.entry().repeat(count)
        }
        "bytes" => {
            let count: usize = words.number();
            vec![words.number(); count]
        }
        "trailer" => {
            let [high, low] = words.number::<u16>().to_be_bytes();
            let classes = words.number();
            let [length_high, length_low] = words.number::<u16>().to_be_bytes();
            vec![high, low, classes, 0, length_high, length_low, 0x4C, 0x4B]
        }
        other => panic!("{other} writes no bytes"),
    }
}

fn same<T: PartialEq + std::fmt::Debug>(found: T, wanted: T) -> Result<(), String> {
    match found == wanted {
        true => Ok(()),
        false => Err(format!("{found:?} for {wanted:?}")),
    }
}

fn steps(text: &str) -> impl Iterator<Item = &str> {
    text.split(';')
        .map(str::trim)
        .filter(|step| !step.is_empty())
}

/// What is wrong, by line, and how many cases there are.
fn judge(text: &str) -> (Vec<String>, usize) {
    let mut known = HashMap::new();
    let mut given = "";
    let (mut wrong, mut cases) = (vec![], 0);
    for (number, line) in text.lines().enumerate() {
        if let Some(definition) = line.strip_prefix("define ") {
            let (name, steps) = definition.split_once(';').expect("a name and steps");
            known.insert(name.trim(), steps);
        } else if let Some(steps) = line.strip_prefix("given") {
            given = steps;
        } else if !line.is_empty() && !line.starts_with('#') {
            let (own, _) = line.split_once(':').expect("a name");
            let mut case = Case::blank();
            let result = steps(given)
                .chain(steps(own))
                .try_for_each(|step| case.take(step, &known));
            cases += 1;
            if let Err(what) = result {
                wrong.push(format!("line {}: {line}: {what}", number + 1));
            }
        }
    }
    (wrong, cases)
}

#[test]
fn every_case_comes_out_as_worked_out_by_hand() {
    let own = concat!(env!("CARGO_MANIFEST_DIR"), "/../../crates/vectors/stdin");
    let more = std::env::var("HVEITMAR_CASES").unwrap_or_default();
    let files = std::iter::once(own).chain(more.split(':').filter(|name| !name.is_empty()));
    let text: String = files
        .map(|name| std::fs::read_to_string(name).unwrap_or_else(|e| panic!("{name}: {e}")))
        .collect();
    let (wrong, cases) = judge(&text);
    assert!(cases > 1_000, "{cases}");
    assert!(
        wrong.is_empty(),
        "{} of {cases}\n{}",
        wrong.len(),
        wrong.join("\n")
    );
}
