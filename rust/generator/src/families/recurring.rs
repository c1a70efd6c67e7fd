//! Threads that are started again and again, and take their locks more than
//! once.

use crate::builder::{Draft, Method, Written};
use crate::rng::Rng;
use reference::bundle::{Addr, Instr, Var};
use reference::entries::Entry;

const MAIN: u8 = 0;
const WORKER: u8 = 1;

/// A main thread that makes a few objects, and then never stops starting
/// threads that share them; each of these soon ends.
pub fn recurring(rng: &mut Rng) -> Draft {
    let shared = rng.between(1, 3);
    Draft {
        methods: vec![main_method(rng, shared), worker(rng, shared)],
        exception: rng.pick(&[MAIN, WORKER]),
    }
}

impl Written {
    /// Takes the lock of a variable and gives it back, a few times over.
    fn lock(&mut self, rng: &mut Rng, variables: &mut [Entry], v: usize) {
        let times = rng.pick(&[1, 1, 2, 3]);
        let held = |count: i16| Entry::reference(MAIN, count, -count);
        for count in 0..times {
            variables[v] = held(count);
            self.add(Instr::Enter(Var(v as u8), None), variables, &[]);
        }
        for count in (0..times).rev() {
            variables[v] = held(count + 1);
            self.add(Instr::Exit(Var(v as u8)), variables, &[]);
        }
        variables[v] = held(0);
    }
}

/// Variable i holds object i, the last one the object that is started.
fn main_method(rng: &mut Rng, shared: usize) -> Method {
    let mut written = Written::default();
    let mut variables = vec![Entry::Top; shared + 1];
    for v in 0..=shared {
        let class = if v == shared { WORKER } else { MAIN };
        written.add(Instr::New(class, None), &variables, &[]);
        written.add(
            Instr::Store(Var(v as u8)),
            &variables,
            &[Entry::fresh(class)],
        );
        variables[v] = Entry::fresh(class);
    }
    let again = Addr(written.code.len() as u16 + 1);
    let mut stack = vec![];
    for v in (0..=shared).rev() {
        written.add(Instr::Load(Var(v as u8)), &variables, &stack);
        stack.insert(0, variables[v]);
    }
    written.add(Instr::Start(WORKER), &variables, &stack);
    if rng.chance(1, 2) {
        let v = rng.below(shared);
        written.lock(rng, &mut variables, v);
    }
    written.add(Instr::Push0, &variables, &[]);
    written.add(Instr::Inc, &variables, &[Entry::Int]);
    written.add(Instr::If(again), &variables, &[Entry::Int]);
    written.add(Instr::Return, &variables, &[]);
    Method {
        variables: shared + 1,
        stack_limit: shared + 1,
        code: written.code,
        rows: written.rows,
        ..Method::default()
    }
}

fn worker(rng: &mut Rng, shared: usize) -> Method {
    let mut written = Written::default();
    let mut variables = vec![Entry::fresh(MAIN); shared];
    for _ in 0..rng.between(1, 3) {
        let v = rng.below(shared);
        written.lock(rng, &mut variables, v);
    }
    written.add(Instr::Return, &variables, &[]);
    Method {
        arguments: vec![MAIN; shared],
        variables: shared,
        code: written.code,
        rows: written.rows,
        ..Method::default()
    }
}
