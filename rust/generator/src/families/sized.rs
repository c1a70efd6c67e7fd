//! Bundles of a wanted size and fate, for the benchmark.

use super::typed;
use crate::builder::{lay_out, Method, Row};
use crate::rng::Rng;
use reference::bundle::{Addr, Instr, Var, DIRECTORY_ENTRY, MAX_LENGTH, TRAILER};
use reference::entries::{kind, Entry, END_BIAS};
use reference::verify::{verify, Verdict};

const MAX_CODE: usize = 256;
/// V and K of striped methods that needn't be wider.
const NARROW: (usize, usize) = (4, 3);

/// Accepted bundles of several classes and about `bytes`, by trial.
pub fn typical(bytes: usize, wanted: usize) -> Vec<Vec<u8>> {
    (0..)
        .map(|seed| typed::well_typed(&mut Rng::new(seed)))
        .filter(|b| b.len().abs_diff(bytes) < bytes / 10)
        .filter(|b| {
            let verdict = verify(b);
            verdict.number == 0 && verdict.class >= 3 && refused_late(b).is_some()
        })
        .take(wanted)
        .collect()
}

/// Accepted bundles of eight classes near the limit of 65,535 bytes: main
/// methods that know no class but 0, which has no arguments in any bundle and
/// no fields in these.
pub fn full(wanted: usize) -> Vec<Vec<u8>> {
    let mains: Vec<Method> = (0..)
        .map(|seed| typed::draft(&mut Rng::new(seed), None).methods)
        .filter(|methods| methods.len() == 1)
        .flatten()
        .filter(|method| method.fields.is_empty())
        .filter(|method| (7_000..8_180).contains(&method.record().len()))
        .take(8 + wanted)
        .collect();
    (0..wanted).map(|i| lay_out(&mains[i..i + 8])).collect()
}

/// The same bundle refused at its very last address (9): a reference in the
/// last row still owes a lock there. None if that row has no reference.
pub fn refused_late(bundle: &[u8]) -> Option<Vec<u8>> {
    let count = bundle[bundle.len() - TRAILER + 2];
    let end = bundle.len() - TRAILER - DIRECTORY_ENTRY * usize::from(count);
    let code = u16::from_be_bytes([
        bundle[bundle.len() - TRAILER - 2],
        bundle[bundle.len() - TRAILER - 1],
    ]);
    let last = Verdict::new(9, count - 1, code);
    (end.saturating_sub(140)..end - 4)
        .rev()
        .filter(|&at| bundle[at] == kind::REFERENCE)
        .map(|at| {
            let mut owing = bundle.to_vec();
            owing[at + 3] = (END_BIAS - 1) as u8;
            owing
        })
        .find(|owing| verify(owing).because(0) == last)
}

/// The same bundle with an unknown opcode at class 0, address 1 (7).
pub fn refused_at_first_instruction(bundle: &[u8]) -> Vec<u8> {
    let count = bundle[bundle.len() - TRAILER + 2];
    let directory = bundle.len() - TRAILER - DIRECTORY_ENTRY * usize::from(count);
    let fields = bundle[directory + 5];
    let mut out = bundle.to_vec();
    out[usize::from(fields)] = 0;
    out
}

/// The same bundle with a wrong last byte (2).
pub fn refused_early(bundle: &[u8]) -> Vec<u8> {
    let mut out = bundle.to_vec();
    *out.last_mut().expect("a trailer") ^= 1;
    out
}

/// Code and rows written side by side, with V and K.
struct Stripe {
    variables: usize,
    stack_limit: usize,
    code: Vec<Instr>,
    rows: Vec<Row>,
}

impl Stripe {
    fn new((variables, stack_limit): (usize, usize)) -> Stripe {
        Stripe {
            variables,
            stack_limit,
            code: vec![],
            rows: vec![],
        }
    }

    /// An instruction and its row: all variables but the first two are Top.
    fn add(&mut self, instr: Instr, variables: [Entry; 2], stack: &[Entry]) {
        let mut all = variables.to_vec();
        all.resize(self.variables, Entry::Top);
        self.code.push(instr);
        self.rows.push(Row::new(&all, stack));
    }

    /// An object in variable 0, an integer in variable 1: four instructions.
    fn begin(&mut self) {
        let free = Entry::fresh(0);
        self.add(Instr::New(0, None), [Entry::Top, Entry::Top], &[]);
        self.add(Instr::Store(Var(0)), [Entry::Top, Entry::Top], &[free]);
        self.add(Instr::Push0, [free, Entry::Top], &[]);
        self.add(Instr::Store(Var(1)), [free, Entry::Top], &[Entry::Int]);
    }

    /// A lock taken, a branch and an alias under it, and the lock given back.
    fn block(&mut self) {
        let (free, held) = (Entry::fresh(0), Entry::reference(0, 1, -1));
        let (at_rest, locked) = ([free, Entry::Int], [held, Entry::Int]);
        let after_branch = Addr(self.code.len() as u16 + 5);
        self.add(Instr::Enter(Var(0), None), at_rest, &[]);
        self.add(Instr::Push0, locked, &[]);
        self.add(Instr::Inc, locked, &[Entry::Int]);
        self.add(Instr::If(after_branch), locked, &[Entry::Int]);
        self.add(Instr::Load(Var(0)), locked, &[]);
        self.add(Instr::Pop, locked, &[free]);
        self.add(Instr::Exit(Var(0)), locked, &[]);
        self.add(Instr::Load(Var(1)), at_rest, &[]);
        self.add(Instr::Store(Var(1)), at_rest, &[Entry::Int]);
    }

    fn end(mut self, instr: Instr, stack: &[Entry]) -> Method {
        self.add(instr, [Entry::fresh(0), Entry::Int], stack);
        Method {
            variables: self.variables,
            stack_limit: self.stack_limit,
            code: self.code,
            rows: self.rows,
            ..Method::default()
        }
    }
}

/// An accepted bundle of at most `bytes` whose code is one block again and
/// again, so that only the size differs from one to the next.
pub fn striped(bytes: usize, variables: usize, stack_limit: usize) -> Vec<u8> {
    let instruction = 4 + 4 * variables + 1 + 4 * stack_limit;
    let total = (bytes - TRAILER - 8 * DIRECTORY_ENTRY) / instruction;
    let classes = total.div_ceil(MAX_CODE);
    let method = striped_method(total / classes, (variables, stack_limit));
    lay_out(&vec![method; classes])
}

fn striped_method(length: usize, size: (usize, usize)) -> Method {
    let mut stripe = Stripe::new(size);
    stripe.begin();
    while stripe.code.len() + 10 <= length {
        stripe.block();
    }
    stripe.end(Instr::Return, &[])
}

/// The class of the threads that an endless main thread starts.
const STARTED: u8 = 1;

/// What a method has at rest: an object in variable 0, an integer in 1.
const AT_REST: [Entry; 2] = [Entry::fresh(0), Entry::Int];

impl Stripe {
    /// From rest on without an end: the object is thrown to a handler before the
    /// block, again and again.
    fn forever(mut self) -> Method {
        self.add(Instr::Load(Var(0)), AT_REST, &[]);
        let handler = Addr(self.code.len() as u16 + 1);
        self.add(Instr::Pop, AT_REST, &[Entry::fresh(0)]);
        self.block();
        self.add(Instr::Load(Var(0)), AT_REST, &[]);
        self.end(Instr::Athrow(Some(handler)), &[Entry::fresh(0)])
    }
}

/// A method that never ends, and starts so many threads before.
fn endless_method(starts: usize) -> Method {
    let mut stripe = Stripe::new(NARROW);
    stripe.begin();
    for _ in 0..starts {
        stripe.add(Instr::New(STARTED, None), AT_REST, &[]);
        stripe.add(Instr::Start(STARTED), AT_REST, &[Entry::fresh(STARTED)]);
    }
    stripe.forever()
}

/// So many threads that never end, beside the methods of `others` further
/// classes. Each has an object of its own.
pub fn endless(threads: usize, others: usize) -> Vec<u8> {
    beside(others, vec![endless_method(threads - 1), endless_method(0)])
}

/// The same with one object for all: most of their steps wait.
pub fn wanting(threads: usize, others: usize) -> Vec<u8> {
    let (object, started) = (Entry::fresh(0), Entry::fresh(STARTED));
    let mut main = Stripe::new(NARROW);
    main.begin();
    for _ in 1..threads {
        main.add(Instr::New(STARTED, None), AT_REST, &[]);
        main.add(Instr::Load(Var(0)), AT_REST, &[started]);
        main.add(Instr::Start(STARTED), AT_REST, &[object, started]);
    }
    let mut other = Stripe::new(NARROW);
    other.add(Instr::Push0, [object, Entry::Top], &[]);
    other.add(Instr::Store(Var(1)), [object, Entry::Top], &[Entry::Int]);
    let other = Method {
        arguments: vec![0],
        ..other.forever()
    };
    beside(others, vec![main.forever(), other])
}

fn beside(others: usize, mut methods: Vec<Method>) -> Vec<u8> {
    methods.extend(vec![striped_method(250, NARROW); others]);
    lay_out(&methods)
}

/// A schedule for threads that never end: all are started, and then take their
/// steps in turn.
pub fn turns(threads: usize, steps: usize) -> Vec<u8> {
    in_turn(4 + 2 * (threads - 1), threads, steps)
}

/// The same for those that want one object.
pub fn wanting_turns(threads: usize, steps: usize) -> Vec<u8> {
    in_turn(4 + 3 * (threads - 1), threads, steps)
}

/// `alone` is what main does before it has started all of them.
fn in_turn(alone: usize, threads: usize, steps: usize) -> Vec<u8> {
    (0..steps)
        .map(|step| (step.saturating_sub(alone) % threads) as u8)
        .collect()
}

/// The variables of a method whose locks grow, and how many such classes there
/// are beside main.
const GROWING: usize = 16;
const GROWING_CLASSES: usize = 4;

/// A bundle near the limit of 65,535 bytes of which no pairs are accepted, and
/// which is long in showing it: each throw goes back by one address, round a way
/// on which each variable's lock is taken once, far from the others.
pub fn growing() -> Vec<u8> {
    let main = Method {
        code: vec![Instr::Return],
        rows: vec![Row::default()],
        ..Method::default()
    };
    let mut methods = vec![main];
    let instruction = 4 + 4 * GROWING + 1 + 4;
    let records = MAX_LENGTH - 2 * TRAILER - DIRECTORY_ENTRY * (GROWING_CLASSES + 1);
    let length = (records / GROWING_CLASSES - GROWING) / instruction;
    methods.extend(vec![growing_method(length); GROWING_CLASSES]);
    lay_out(&methods)
}

fn growing_method(length: usize) -> Method {
    let variables = [Entry::fresh(0); GROWING];
    let mut code = vec![Instr::Load(Var(0)), Instr::Enter(Var(0), None)];
    // Where the next throw goes back to; the first one goes to the last such place.
    let mut back = code.len();
    code.push(Instr::Athrow(None));
    let apart = length / GROWING;
    let mut entered = 1;
    while code.len() < length {
        let next = Some(Addr(back as u16));
        back = code.len() + 1;
        if entered < GROWING && code.len() + 1 >= entered * apart && code.len() + 1 < length {
            code.push(Instr::Enter(Var(entered as u8), None));
            entered += 1;
        }
        code.push(Instr::Athrow(next));
    }
    code[2] = Instr::Athrow(Some(Addr(back as u16)));
    let mut rows = vec![Row::new(&variables, &[Entry::fresh(0)]); code.len()];
    rows[0].stack.clear();
    Method {
        arguments: vec![0; GROWING],
        variables: GROWING,
        stack_limit: 1,
        code,
        rows,
        ..Method::default()
    }
}
