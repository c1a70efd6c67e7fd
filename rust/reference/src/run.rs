//! A list of steps run on a bundle that is accepted: it is judged once, and one
//! state changes in place.
//!
//! No fault can arise here, so nothing is asked but whether a thread lives,
//! whether another holds the lock, and whether a thread is free.

use crate::bundle::{Addr, Bundle, Class, Field, Instr, Var};
use crate::known::Known;
use crate::machine::{answer, fresh_in, step_in};
use crate::slips::{AsWritten, Law, Slip};
use crate::state::{State, Thread, Value, OBJECT_0, THREADS};
use crate::verify::{accept, Verdict};

/// What a list came to. Where the verdict is not 0 nothing was run: the answer
/// is 19, the number 0 and the state the empty one.
#[derive(Clone, Debug, PartialEq, Eq)]
pub struct Ran {
    pub verdict: Verdict,
    /// How many steps answered 0, 1 or 2.
    pub number: u64,
    /// The state after the last one.
    pub state: State,
}

/// Runs a list of schedule bytes from the fresh machine of a bundle that is
/// accepted. Answers 3, 4 and 5 are passed over.
pub fn run(b: &[u8], list: &[u8]) -> Ran {
    run_by::<AsWritten>(b, list)
}

pub(crate) fn run_by<L: Law>(b: &[u8], list: &[u8]) -> Ran {
    match accept(b) {
        Ok(bundle) => {
            let mut runner = Runner::fresh(&bundle);
            let number = number::<L>(list, |thread, fails| runner.step(thread, fails));
            Ran {
                verdict: Verdict::new(0, bundle.count(), 0),
                number,
                state: runner.state,
            }
        }
        Err(verdict) => refused::<L>(b, list, verdict),
    }
}

fn refused<L: Law>(b: &[u8], list: &[u8], verdict: Verdict) -> Ran {
    let mut ran = Ran {
        verdict,
        number: 0,
        state: State::EMPTY,
    };
    let Ok(bundle) = Bundle::open_with_code(b) else {
        return ran;
    };
    if L::slips(Slip::RefusedStateIsFresh) || L::slips(Slip::RefusedIsRun) {
        ran.state = fresh_in(&bundle);
    }
    if L::slips(Slip::RefusedIsRun) {
        ran.verdict = Verdict::new(0, bundle.count(), 0);
        ran.number = number::<L>(list, |thread, fails| {
            step_in(&bundle, &mut ran.state, thread as u8, fails)
        });
    }
    ran
}

/// How many of the list's steps answer 0, 1 or 2.
fn number<L: Law>(list: &[u8], mut step: impl FnMut(usize, bool) -> u8) -> u64 {
    let list = match list.split_last() {
        Some((_, rest)) if L::slips(Slip::LastStepLeftOut) => rest,
        _ => list,
    };
    let mut number = 0;
    for &byte in list {
        let (thread, fails) = turn::<L>(byte);
        let given = step(thread, fails);
        number += u64::from(counts::<L>(given));
        if stops::<L>(given) {
            break;
        }
    }
    match L::slips(Slip::NumberOfTwoBytes) {
        true => number & 0xFFFF,
        false => number,
    }
}

fn counts<L: Law>(given: u8) -> bool {
    match given {
        answer::WENT_ON => true,
        answer::RETURNED => !L::slips(Slip::ReturnsUncounted),
        answer::UNCAUGHT => !L::slips(Slip::UncaughtUncounted),
        answer::HELD => L::slips(Slip::CountsWaits),
        answer::NO_THREAD_FREE => L::slips(Slip::CountsFullStarts),
        _ => false,
    }
}

/// Whether the rest of the list is left out: never, by the law.
fn stops<L: Law>(given: u8) -> bool {
    L::slips(match given {
        answer::RETURNED | answer::UNCAUGHT => Slip::StopsAtEnd,
        answer::HELD => Slip::StopsAtWait,
        answer::NO_THREAD_FREE => Slip::StopsAtFullStart,
        answer::NOT_LIVE => Slip::StopsAtNotLive,
        _ => return false,
    })
}

/// A schedule byte: the low three bits are the thread, the top bit says that
/// new fails, the others are ignored.
fn turn<L: Law>(byte: u8) -> (usize, bool) {
    let thread = match L::slips(Slip::ThreadOfFourBits) {
        true => byte & 0x0F,
        false => byte & 0x07,
    };
    let fails = match () {
        () if L::slips(Slip::BitSixFails) => byte & 0x40 != 0,
        () if L::slips(Slip::FailsAbove128) => byte > 0x80,
        () => byte & 0x80 != 0,
    };
    (usize::from(thread), fails)
}

/// The class of thread 0 of a fresh machine.
const MAIN: u8 = 0;

/// The machine of an accepted bundle.
struct Runner<'a> {
    bundle: &'a Bundle<'a>,
    state: State,
    /// The class of each thread that lives.
    classes: [&'a Class<'a>; THREADS],
    /// A bit for each object that some thread holds.
    taken: u32,
}

impl<'a> Runner<'a> {
    fn fresh(bundle: &'a Bundle<'a>) -> Runner<'a> {
        Runner {
            bundle,
            state: fresh_in(bundle),
            classes: [bundle.class(MAIN); THREADS],
            taken: 0,
        }
    }

    /// One step of one thread; the answer is one of 0 to 5. Inlined into the loop
    /// over the list.
    #[inline(always)]
    fn step(&mut self, mover: usize, fails: bool) -> u8 {
        let Some(thread) = self.state.threads.get_mut(mover).filter(|t| t.live) else {
            return answer::NOT_LIVE;
        };
        let class = *self.classes.known(mover);
        match class.instruction(Addr(thread.address)) {
            Instr::Inc => thread.increase(),
            Instr::Pop => {
                thread.pop();
            }
            Instr::Push0 => thread.push(Value::ZERO),
            Instr::Load(v) => thread.push(thread.variable(v)),
            Instr::Store(v) => thread.store(v),
            Instr::If(target) => {
                if thread.pop() != Value::ZERO {
                    thread.address = target.0;
                    return answer::WENT_ON;
                }
            }
            Instr::Enter(v, handler) => return self.enter(mover, class, v, handler),
            Instr::Exit(v) => self.exit(mover, v),
            Instr::New(c, handler) => match fails || self.state.is_full() {
                true => return self.throw(mover, class, handler, Value::Ref(OBJECT_0)),
                false => self.make(mover, c),
            },
            Instr::Start(c) => return self.start(mover, c),
            Instr::Athrow(handler) => {
                let thrown = thread.pop();
                return self.throw(mover, class, handler, thrown);
            }
            Instr::Return => {
                thread.end(class.variables);
                return answer::RETURNED;
            }
            Instr::Getfield(field, handler) => return self.getfield(mover, class, field, handler),
            Instr::Putfield(field, handler) => return self.putfield(mover, class, field, handler),
        }
        self.go_on(mover)
    }

    fn thread(&mut self, mover: usize) -> &mut Thread {
        self.state.threads.known_mut(mover)
    }

    fn go_on(&mut self, mover: usize) -> u8 {
        self.thread(mover).address += 1;
        answer::WENT_ON
    }

    /// Goes to the handler; with none, the thread ends.
    fn throw(&mut self, mover: usize, class: &Class, handler: Option<Addr>, thrown: Value) -> u8 {
        let thread = self.thread(mover);
        match handler {
            Some(address) => {
                thread.catch(thrown, address);
                answer::WENT_ON
            }
            None => {
                thread.end(class.variables);
                answer::UNCAUGHT
            }
        }
    }

    /// What is no object here is null, and throws. Inlined, since a thread that
    /// waits asks again and again.
    #[inline(always)]
    fn enter(&mut self, mover: usize, class: &Class, v: Var, handler: Option<Addr>) -> u8 {
        let Value::Ref(object) = self.thread(mover).variable(v) else {
            return self.throw(mover, class, handler, Value::Ref(OBJECT_0));
        };
        let (bit, own) = (1 << object, self.state.held.known_mut(mover));
        if self.taken & bit & !*own != 0 {
            return answer::HELD;
        }
        self.taken |= bit;
        *own |= bit;
        *self.state.count_mut(mover, object) += 1;
        self.go_on(mover)
    }

    fn exit(&mut self, mover: usize, v: Var) {
        if let Value::Ref(object) = self.thread(mover).variable(v) {
            let count = self.state.count_mut(mover, object);
            *count -= 1;
            if *count == 0 {
                let bit = 1 << object;
                self.taken &= !bit;
                *self.state.held.known_mut(mover) &= !bit;
            }
        }
    }

    fn start(&mut self, mover: usize, c: u8) -> u8 {
        let class = self.bundle.class(c);
        match self.state.start(mover, c, class.arguments.len()) {
            Some(started) => {
                *self.classes.known_mut(started) = class;
                self.go_on(mover)
            }
            None => answer::NO_THREAD_FREE,
        }
    }

    fn make(&mut self, mover: usize, class: u8) {
        let object = self.state.add_object(class);
        self.state.unset_fields(object, self.bundle.class(class));
        self.thread(mover).push(Value::Ref(object));
    }

    /// The owner makes way for what its field holds; null throws.
    fn getfield(&mut self, mover: usize, class: &Class, field: Field, handler: Option<Addr>) -> u8 {
        let Value::Ref(owner) = self.thread(mover).pop() else {
            return self.throw(mover, class, handler, Value::Ref(OBJECT_0));
        };
        let value = *self.state.fields.known(State::place(owner, field));
        self.thread(mover).push(value);
        self.go_on(mover)
    }

    /// Value and owner go; null throws.
    fn putfield(&mut self, mover: usize, class: &Class, field: Field, handler: Option<Addr>) -> u8 {
        let value = self.thread(mover).pop();
        let Value::Ref(owner) = self.thread(mover).pop() else {
            return self.throw(mover, class, handler, Value::Ref(OBJECT_0));
        };
        *self.state.fields.known_mut(State::place(owner, field)) = value;
        self.go_on(mover)
    }
}
