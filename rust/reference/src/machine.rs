//! The machine: a fresh state, one step of one thread, and the number of
//! objects that a thread holds.

use crate::belongs::belongs_by;
use crate::bundle::{Addr, Bundle, Class, Field, Instr, Var, INT};
use crate::known::Known;
use crate::slips::{AsWritten, Law, Slip};
use crate::state::{MAX_COUNT, OBJECTS, OBJECT_0, THREADS};
use std::marker::PhantomData;

pub use crate::state::{State, Thread, Value};

/// The answers of a step, by their numbers in the document.
pub mod answer {
    pub const WENT_ON: u8 = 0;
    pub const RETURNED: u8 = 1;
    pub const UNCAUGHT: u8 = 2;
    pub const HELD: u8 = 3;
    pub const NO_THREAD_FREE: u8 = 4;
    pub const NOT_LIVE: u8 = 5;
    pub const STACK_SHORT: u8 = 11;
    pub const STACK_FULL: u8 = 12;
    pub const WRONG_KIND: u8 = 13;
    pub const EXIT_AT_ZERO: u8 = 14;
    pub const ENDS_HOLDING: u8 = 15;
    pub const COUNT_FULL: u8 = 16;
    pub const BAD_BUNDLE: u8 = 17;
    pub const BAD_STATE: u8 = 18;
}

/// A fresh machine: 0 and the state, or 17 and the empty state.
pub fn fresh(b: &[u8]) -> (u8, State) {
    match Bundle::open_with_code(b) {
        Ok(bundle) => (answer::WENT_ON, fresh_in(&bundle)),
        Err(_) => (answer::BAD_BUNDLE, State::EMPTY),
    }
}

/// The fresh machine of a bundle already opened.
pub fn fresh_in(bundle: &Bundle) -> State {
    let mut state = State::EMPTY;
    state.threads[0].live = true;
    state.threads[0].address = 1;
    let exception = bundle.exception();
    let object = state.add_object(exception);
    state.unset_fields(object, bundle.class(exception));
    state
}

/// One step of one thread. The state is changed with the answers 0, 1, 2 and
/// with no other.
pub fn step(b: &[u8], state: &mut State, thread: u8, fails: bool) -> u8 {
    match Bundle::open_with_code(b) {
        Ok(bundle) => step_in(&bundle, state, thread, fails),
        Err(_) => answer::BAD_BUNDLE,
    }
}

/// The same step for a bundle already opened, so that long runs open it once.
pub fn step_in(bundle: &Bundle, state: &mut State, thread: u8, fails: bool) -> u8 {
    step_by::<AsWritten>(bundle, state, thread, fails)
}

pub(crate) fn step_by<L: Law>(bundle: &Bundle, state: &mut State, thread: u8, fails: bool) -> u8 {
    match admit::<L>(bundle, state, thread) {
        Ok(mover) => Turn::<L> {
            bundle,
            mover,
            fails,
            law: PhantomData,
        }
        .take(state),
        Err(refusal) => refusal,
    }
}

/// How many objects the thread holds: 0 and the number, or 17, 18 or 5 as a
/// step draws them, with number 0.
pub fn held(b: &[u8], state: &State, thread: u8) -> (u8, u8) {
    match Bundle::open_with_code(b) {
        Ok(bundle) => held_in(&bundle, state, thread),
        Err(_) => (answer::BAD_BUNDLE, 0),
    }
}

/// The same question for a bundle already opened.
pub fn held_in(bundle: &Bundle, state: &State, thread: u8) -> (u8, u8) {
    held_by::<AsWritten>(bundle, state, thread)
}

pub(crate) fn held_by<L: Law>(bundle: &Bundle, state: &State, thread: u8) -> (u8, u8) {
    match admit::<L>(bundle, state, thread) {
        Ok(index) if L::slips(Slip::LastBitNotCounted) => {
            let last = state.count(index, OBJECTS - 1) > 0;
            (answer::WENT_ON, state.number_held(index) - u8::from(last))
        }
        Ok(index) => (answer::WENT_ON, state.number_held(index)),
        Err(refusal) => (refusal, 0),
    }
}

/// 18, then 5; gives the thread's number as an index.
pub(crate) fn admit<L: Law>(bundle: &Bundle, state: &State, thread: u8) -> Result<usize, u8> {
    if !belongs_by::<L>(bundle, state) {
        return Err(answer::BAD_STATE);
    }
    match state.threads.get(usize::from(thread)) {
        Some(t) if t.live => Ok(usize::from(thread)),
        _ => Err(answer::NOT_LIVE),
    }
}

/// One step that 17, 18 and 5 have let through.
struct Turn<'a, L> {
    bundle: &'a Bundle<'a>,
    mover: usize,
    fails: bool,
    law: PhantomData<L>,
}

impl<L: Law> Turn<'_, L> {
    /// Looks for a refusal first and only then writes, so that a refused
    /// state stays as given.
    fn take(&self, state: &mut State) -> u8 {
        let thread = self.thread(state);
        let class = self.bundle.class(thread.class);
        let instr = class.instruction(Addr(thread.address));
        match self.refusal(state, class, instr) {
            Err(refusal) => refusal,
            Ok(()) => self.go(state, class, instr),
        }
    }

    /// The faults by number, then 3 or 4.
    fn refusal(&self, state: &State, class: &Class, instr: Instr) -> Result<(), u8> {
        match instr {
            Instr::Inc | Instr::If(_) => {
                self.wants(state, 1)?;
                self.wants_kind(matches!(self.thread(state).peek(0), Value::Int(_)))
            }
            Instr::Pop | Instr::Store(_) => self.wants(state, 1),
            Instr::Push0 | Instr::Load(_) => self.wants_room(state, class),
            Instr::Enter(v, handler) => self.refuses_enter(state, class, v, handler),
            Instr::Exit(v) => self.refuses_exit(state, v),
            Instr::New(_, handler) if self.new_fails(state) => {
                self.refuses_throw(state, class, handler)
            }
            Instr::New(..) => self.wants_room(state, class),
            Instr::Start(c) => self.refuses_start(state, c),
            Instr::Athrow(handler) => {
                self.wants(state, 1)?;
                let top = self.thread(state).peek(0);
                self.wants_kind(state.is_of_class(top, self.bundle.exception()))?;
                self.refuses_throw(state, class, handler)
            }
            Instr::Return => self.wants_end(state),
            Instr::Getfield(field, handler) => {
                self.wants(state, 1)?;
                self.refuses_access(state, class, field, 0, handler)
            }
            Instr::Putfield(field, handler) => {
                self.wants(state, 2)?;
                let value = self.thread(state).peek(0);
                let descriptor = self.bundle.descriptor(field);
                self.wants_kind(may_be_put(state, value, descriptor))?;
                self.refuses_access(state, class, field, 1, handler)
            }
        }
    }

    fn thread<'s>(&self, state: &'s State) -> &'s Thread {
        state.threads.known(self.mover)
    }

    fn thread_mut<'s>(&self, state: &'s mut State) -> &'s mut Thread {
        state.threads.known_mut(self.mover)
    }

    fn wants(&self, state: &State, entries: usize) -> Result<(), u8> {
        refuse_unless(
            usize::from(self.thread(state).depth) >= entries,
            answer::STACK_SHORT,
        )
    }

    fn wants_room(&self, state: &State, class: &Class) -> Result<(), u8> {
        let depth = usize::from(self.thread(state).depth);
        refuse_unless(depth < class.stack_limit, answer::STACK_FULL)
    }

    fn wants_kind(&self, right: bool) -> Result<(), u8> {
        refuse_unless(right, answer::WRONG_KIND)
    }

    /// A thread that would end may hold nothing.
    fn wants_end(&self, state: &State) -> Result<(), u8> {
        let holds = state.counts_of(self.mover).iter().any(|&count| count > 0);
        refuse_unless(!holds, answer::ENDS_HOLDING)
    }

    /// A handler needs room for what is thrown, on a stack emptied first;
    /// without one the thread would end.
    fn refuses_throw(&self, state: &State, class: &Class, handler: Option<Addr>) -> Result<(), u8> {
        match handler {
            Some(_) => refuse_unless(class.stack_limit > 0, answer::STACK_FULL),
            None => self.wants_end(state),
        }
    }

    fn new_fails(&self, state: &State) -> bool {
        self.fails || state.is_full()
    }

    /// The object whose count monitorenter or monitorexit moves; none is null.
    fn locked(&self, state: &State, v: Var) -> Result<Option<usize>, u8> {
        match self.thread(state).variable(v) {
            Value::Ref(_) if L::slips(Slip::CountByVariable) => Ok(Some(usize::from(v.0))),
            Value::Ref(object) => Ok(Some(usize::from(object))),
            Value::Null => Ok(None),
            Value::Int(_) => Err(answer::WRONG_KIND),
        }
    }

    fn held_elsewhere(&self, state: &State, object: usize) -> bool {
        (0..THREADS).any(|t| t != self.mover && state.count(t, object) > 0)
    }

    fn refuses_enter(
        &self,
        state: &State,
        class: &Class,
        v: Var,
        handler: Option<Addr>,
    ) -> Result<(), u8> {
        let Some(object) = self.locked(state, v)? else {
            self.refuses_throw(state, class, handler)?;
            let waits =
                L::slips(Slip::NullWaits) && self.held_elsewhere(state, usize::from(OBJECT_0));
            return refuse_unless(!waits, answer::HELD);
        };
        let own = state.count(self.mover, object);
        refuse_unless(own < MAX_COUNT, answer::COUNT_FULL)?;
        refuse_unless(!self.held_elsewhere(state, object), answer::HELD)?;
        refuse_unless(!(L::slips(Slip::ReentryWaits) && own > 0), answer::HELD)
    }

    fn refuses_exit(&self, state: &State, v: Var) -> Result<(), u8> {
        match self.locked(state, v)? {
            Some(object) => {
                refuse_unless(state.count(self.mover, object) > 0, answer::EXIT_AT_ZERO)
            }
            None => Err(answer::WRONG_KIND),
        }
    }

    /// The owner lies so far below the top; null is thrown.
    fn refuses_access(
        &self,
        state: &State,
        class: &Class,
        field: Field,
        below: usize,
        handler: Option<Addr>,
    ) -> Result<(), u8> {
        match self.thread(state).peek(below) {
            Value::Null => self.refuses_throw(state, class, handler),
            owner => self.wants_kind(state.is_of_class(owner, field.class)),
        }
    }

    fn refuses_start(&self, state: &State, class: u8) -> Result<(), u8> {
        let descriptors = self.bundle.class(class).arguments;
        self.wants(state, descriptors.len() + 1)?;
        let thread = self.thread(state);
        let arguments_match = descriptors
            .iter()
            .enumerate()
            .all(|(i, &descriptor)| is_as_told(state, thread.peek(i), descriptor));
        let object = thread.peek(descriptors.len());
        self.wants_kind(arguments_match && state.is_of_class(object, class))?;
        refuse_unless(
            state.threads.iter().any(|t| !t.live),
            answer::NO_THREAD_FREE,
        )
    }

    /// What the step changes; nothing refuses any more.
    fn go(&self, state: &mut State, class: &Class, instr: Instr) -> u8 {
        if let Some((thrown, handler)) = self.thrown(state, instr) {
            return self.throw(state, class, handler, thrown);
        }
        match instr {
            Instr::Enter(v, _) => self.move_count(state, v, |count| count + 1),
            Instr::Exit(v) => self.move_count(state, v, |count| count - 1),
            Instr::New(c, _) => self.make(state, c),
            Instr::Start(c) => {
                state.start(self.mover, c, self.bundle.class(c).arguments.len());
            }
            Instr::Getfield(field, _) => self.getfield(state, field),
            Instr::Putfield(field, _) => self.putfield(state, field),
            Instr::Return => {
                self.thread_mut(state).end(class.variables);
                return answer::RETURNED;
            }
            own => {
                self.compute(self.thread_mut(state), own);
                return answer::WENT_ON;
            }
        }
        self.thread_mut(state).address += 1;
        answer::WENT_ON
    }

    /// What the step throws, and the handler: athrow's top; object 0 where new
    /// fails, and where null stands for an object to lock or to own a field.
    fn thrown(&self, state: &State, instr: Instr) -> Option<(Value, Option<Addr>)> {
        let thread = self.thread(state);
        let (fails, handler) = match instr {
            Instr::Athrow(handler) => return Some((thread.peek(0), handler)),
            Instr::New(_, handler) => (self.new_fails(state), handler),
            Instr::Enter(v, handler) => (thread.variable(v) == Value::Null, handler),
            Instr::Getfield(_, handler) => (thread.peek(0) == Value::Null, handler),
            Instr::Putfield(_, handler) => (thread.peek(1) == Value::Null, handler),
            _ => return None,
        };
        fails.then_some((Value::Ref(OBJECT_0), handler))
    }

    /// The instructions that touch nothing but their own thread.
    fn compute(&self, thread: &mut Thread, instr: Instr) {
        let mut next = thread.address + 1;
        match instr {
            Instr::Inc => thread.increase(),
            Instr::Pop => {
                thread.pop();
            }
            Instr::Push0 => thread.push(Value::ZERO),
            Instr::Load(v) => thread.push(thread.variable(v)),
            Instr::Store(v) => thread.store(v),
            Instr::If(target) => {
                if thread.pop() != Value::ZERO {
                    next = target.0;
                }
            }
            _ => unreachable!("not an instruction of its own thread alone"),
        }
        thread.address = next;
    }

    fn move_count(&self, state: &mut State, v: Var, change: impl Fn(u16) -> u16) {
        if let Ok(Some(object)) = self.locked(state, v) {
            let count = state.counts.known_mut(self.mover * OBJECTS + object);
            let before = std::mem::replace(count, change(*count));
            let exits = *count < before;
            let word = state.word(self.mover);
            *state.held.known_mut(self.mover) = match L::SLIP {
                Some(Slip::BitOfAnotherObject) => word.rotate_left(1),
                Some(Slip::ExitClearsBit) if exits => word & !(1 << object),
                _ => word,
            };
        }
    }

    fn make(&self, state: &mut State, class: u8) {
        let object = state.add_object(class);
        if !L::slips(Slip::NewLeavesFields) {
            state.unset_fields(object, self.bundle.class(class));
        }
        self.thread_mut(state).push(Value::Ref(object));
    }

    /// The owner makes way for what its field holds.
    fn getfield(&self, state: &mut State, field: Field) {
        if let Value::Ref(owner) = self.thread_mut(state).pop() {
            let value = *state.fields.known(State::place(owner, field));
            self.thread_mut(state).push(value);
        }
    }

    fn putfield(&self, state: &mut State, field: Field) {
        let thread = self.thread_mut(state);
        let value = thread.pop();
        if let Value::Ref(owner) = thread.pop() {
            *state.fields.known_mut(State::place(owner, field)) = value;
        }
    }

    /// Goes to the handler; with none, the thread ends.
    fn throw(&self, state: &mut State, class: &Class, handler: Option<Addr>, thrown: Value) -> u8 {
        let thread = self.thread_mut(state);
        match handler {
            Some(address) => {
                thread.catch(thrown, address);
                answer::WENT_ON
            }
            None => {
                thread.end(class.variables);
                answer::UNCAUGHT
            }
        }
    }
}

fn refuse_unless(holds: bool, refusal: u8) -> Result<(), u8> {
    if holds {
        Ok(())
    } else {
        Err(refusal)
    }
}

/// An integer for the descriptor FF, else an object of that class.
fn is_as_told(state: &State, value: Value, descriptor: u8) -> bool {
    match descriptor {
        INT => matches!(value, Value::Int(_)),
        class => state.is_of_class(value, class),
    }
}

/// As told, or null for a class.
fn may_be_put(state: &State, value: Value, descriptor: u8) -> bool {
    match value {
        Value::Null => descriptor != INT,
        _ => is_as_told(state, value, descriptor),
    }
}
