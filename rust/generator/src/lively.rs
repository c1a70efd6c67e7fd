//! Schedules that follow the reference's machine, so that most steps count.

use crate::families::interface::FEW_ARGUMENTS;
use crate::rng::Rng;
use crate::schedule::Scheduler;
use reference::bundle::{Addr, Bundle, Field, Instr, Var};
use reference::entries::kind;
use reference::instructions::MAX_FIELDS;
use reference::machine::{answer, step_in, State};
use reference::state::{Thread, Value, OBJECTS, THREADS};
use trace::Turn;

/// The bits of a schedule's byte that say nothing.
const IGNORED: u8 = 0x70;

/// A schedule, the reference's answers to it, and what it led to.
#[derive(Debug, Default)]
pub struct Lively {
    pub schedule: Vec<u8>,
    pub answers: Vec<u8>,
    /// Whether an athrow entered a handler.
    pub caught_athrow: bool,
    /// Whether a failed new entered a handler.
    pub caught_new: bool,
    /// Threads started with more than three arguments.
    pub started_with_many: u64,
    pub fields: FieldUse,
}

/// What a run did with fields and null.
#[derive(Clone, Copy, Debug, Default, PartialEq, Eq)]
pub struct FieldUse {
    pub read: u64,
    pub written: u64,
    /// Locks taken where the row says that null may be.
    pub locked: u64,
    /// Locks taken on what another thread had put into the field that it was
    /// read from.
    pub locked_across: u64,
    /// Null thrown to a handler, and to none.
    pub caught: u64,
    pub uncaught: u64,
}

impl FieldUse {
    pub fn add(&mut self, other: &FieldUse) {
        self.read += other.read;
        self.written += other.written;
        self.locked += other.locked;
        self.locked_across += other.locked_across;
        self.caught += other.caught;
        self.uncaught += other.uncaught;
    }

    /// Each with its name.
    pub fn named(&self) -> [(&'static str, u64); 6] {
        [
            ("fields read", self.read),
            ("fields written", self.written),
            ("locks taken where null may be", self.locked),
            (
                "locks taken that another thread had put into a field",
                self.locked_across,
            ),
            ("null caught", self.caught),
            ("null uncaught", self.uncaught),
        ]
    }
}

impl Lively {
    /// At most `steps` from this state, as the scheduler has it.
    pub fn follow(
        rng: &mut Rng,
        bundle: &[u8],
        mut state: State,
        mut scheduler: Scheduler,
        steps: usize,
    ) -> Lively {
        let wild = rng.chance(1, 8);
        let opened = Bundle::open_with_code(bundle).ok();
        let mut lively = Lively::default();
        let mut memory = Memory::default();
        let mut idle = 0;
        while lively.schedule.len() < steps && idle < scheduler.patience() {
            let mut turn = scheduler.turn(&state);
            if wild {
                turn = run_wild(rng, turn);
            }
            let mut given = answer::BAD_BUNDLE;
            if let Some(bundle) = &opened {
                let before = Before::look(&state, turn);
                given = step_in(bundle, &mut state, turn.thread(), turn.fails());
                if given <= answer::UNCAUGHT {
                    lively.watch(bundle, &before, given, &state);
                    memory.watch(bundle, &before, given, &mut lively.fields);
                }
            }
            idle = match given {
                answer::WENT_ON..=answer::UNCAUGHT => 0,
                _ => idle + 1,
            };
            lively.schedule.push(turn.0);
            lively.answers.push(given);
        }
        lively
    }

    /// Notes whether a step entered a handler or started a thread.
    fn watch(&mut self, bundle: &Bundle, before: &Before, given: u8, after: &State) {
        if given != answer::WENT_ON {
            return;
        }
        match before.instruction(bundle) {
            Instr::Athrow(_) => self.caught_athrow = true,
            Instr::New(..) => self.caught_new |= before.objects == after.objects,
            Instr::Start(class) => {
                let many = bundle.class(class).arguments.len() > FEW_ARGUMENTS;
                self.started_with_many += u64::from(many);
            }
            _ => {}
        }
    }
}

/// Another turn, or the same with bits that say nothing.
fn run_wild(rng: &mut Rng, turn: Turn) -> Turn {
    match rng.chance(1, 10) {
        true => Turn(rng.byte()),
        false => Turn(turn.0 | rng.byte() & IGNORED),
    }
}

/// What a step finds: its thread, all fields, and how many objects.
struct Before {
    number: usize,
    thread: Thread,
    fields: [Value; OBJECTS * MAX_FIELDS],
    objects: u8,
}

impl Before {
    fn look(state: &State, turn: Turn) -> Before {
        let number = usize::from(turn.thread());
        Before {
            number,
            thread: state.threads.get(number).copied().unwrap_or(Thread::EMPTY),
            fields: state.fields,
            objects: state.objects,
        }
    }

    /// Of a thread that took its step.
    fn instruction(&self, bundle: &Bundle) -> Instr {
        let Thread { class, address, .. } = self.thread;
        bundle.class(class).instruction(Addr(address))
    }

    /// The value so far below the top.
    fn below(&self, entries: usize) -> Value {
        self.thread.stack[usize::from(self.thread.depth) - 1 - entries]
    }

    /// Whether the row says that the variable may be null.
    fn may_be_null(&self, bundle: &Bundle, v: Var) -> bool {
        let Thread { class, address, .. } = self.thread;
        let row = bundle.class(class).raw_row(Addr(address));
        row.variables[usize::from(v.0)][0] == kind::NULLABLE
    }
}

/// Who put what into fields, and who found it there.
struct Memory {
    /// The thread that last wrote a field place.
    writers: [Option<usize>; OBJECTS * MAX_FIELDS],
    /// The objects that a thread read from a field which another had written.
    found: [[bool; OBJECTS]; THREADS],
}

impl Default for Memory {
    fn default() -> Memory {
        Memory {
            writers: [None; OBJECTS * MAX_FIELDS],
            found: [[false; OBJECTS]; THREADS],
        }
    }
}

impl Memory {
    /// Notes what a step that went through did with a field, a lock or null.
    fn watch(&mut self, bundle: &Bundle, before: &Before, given: u8, used: &mut FieldUse) {
        let (subject, instr) = (before.number, before.instruction(bundle));
        let met = match instr {
            Instr::Enter(v, _) => before.thread.variables[usize::from(v.0)],
            Instr::Getfield(..) => before.below(0),
            Instr::Putfield(..) => before.below(1),
            _ => Value::ZERO,
        };
        match (met, instr) {
            (Value::Null, _) if given == answer::WENT_ON => used.caught += 1,
            (Value::Null, _) => used.uncaught += 1,
            (Value::Ref(object), Instr::Enter(v, _)) => {
                used.locked += u64::from(before.may_be_null(bundle, v));
                used.locked_across += u64::from(self.found[subject][usize::from(object)]);
            }
            (Value::Ref(owner), Instr::Getfield(field, _)) => {
                used.read += 1;
                self.note_read(before, place(owner, field));
            }
            (Value::Ref(owner), Instr::Putfield(field, _)) => {
                used.written += 1;
                self.writers[place(owner, field)] = Some(subject);
            }
            _ => {}
        }
        if given != answer::WENT_ON {
            self.found[subject] = [false; OBJECTS];
        }
    }

    fn note_read(&mut self, before: &Before, place: usize) {
        let another = self.writers[place].is_some_and(|writer| writer != before.number);
        if let (true, Value::Ref(object)) = (another, before.fields[place]) {
            self.found[before.number][usize::from(object)] = true;
        }
    }
}

fn place(owner: u8, field: Field) -> usize {
    usize::from(owner) * MAX_FIELDS + usize::from(field.number)
}
