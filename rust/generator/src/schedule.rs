//! Random schedules, and random states to begin them from.

use crate::rng::Rng;
use crate::words::break_word;
use reference::bundle::{Addr, Bundle, Class, Instr};
use reference::entries::{kind, Entry};
use reference::instructions::MAX_FIELDS;
use reference::machine::step_in;
use reference::state::{State, Thread, Value, MAX_COUNT, OBJECTS, OBJECT_0, PLACES, THREADS};
use trace::Turn;

/// All of four parts of the objects.
const ALL: usize = 4;

/// How a schedule treats its threads.
#[derive(Clone, Debug)]
pub struct Scheduler {
    rng: Rng,
    /// One in this many turns lets new fail; 0 is never.
    failing: usize,
    /// One in this many turns changes the thread.
    changing: usize,
    /// A run ends after so many steps in a row that change nothing.
    patience: usize,
    present: u8,
}

impl Scheduler {
    pub fn new(seed: u64) -> Scheduler {
        let mut rng = Rng::new(seed);
        let failing = rng.pick(&[0, 2, 4, 16]);
        let changing = rng.pick(&[1, 2, 8, 40]);
        Scheduler {
            rng,
            failing,
            changing,
            patience: 12,
            present: 0,
        }
    }

    /// Another thread at every turn, so that threads which want the same locks
    /// meet and wait; no new fails.
    pub fn restless(seed: u64) -> Scheduler {
        Scheduler {
            failing: 0,
            changing: 1,
            patience: 40,
            ..Scheduler::new(seed)
        }
    }

    pub fn patience(&self) -> usize {
        self.patience
    }

    /// The next turn: mostly of a live thread, at times of any number that a
    /// turn can name.
    pub fn turn(&mut self, state: &State) -> Turn {
        let live = |t: u8| {
            state
                .threads
                .get(usize::from(t))
                .is_some_and(|thread| thread.live)
        };
        if !live(self.present) || self.rng.chance(1, self.changing) {
            self.present = self.rng.below(16) as u8;
            let alive: Vec<u8> = (0..THREADS as u8).filter(|&t| live(t)).collect();
            if !alive.is_empty() && !self.rng.chance(1, 20) {
                self.present = self.rng.pick(&alive);
            }
        }
        let fails = self.failing > 0 && self.rng.chance(1, self.failing);
        Turn::new(self.present, fails)
    }
}

/// A schedule for this bundle from this state: it follows the true machine to
/// know which threads are live.
pub fn schedule(b: &[u8], start: &State, seed: u64, steps: usize) -> Vec<u8> {
    let mut scheduler = Scheduler::new(seed);
    let mut state = start.clone();
    let bundle = Bundle::open_with_code(b).ok();
    let mut turns = Vec::with_capacity(steps);
    for _ in 0..steps {
        let turn = scheduler.turn(&state);
        turns.push(turn.0);
        if let Some(bundle) = &bundle {
            step_in(bundle, &mut state, turn.thread(), turn.fails());
        }
    }
    turns
}

/// The bits that say nothing in a byte of a list that is run at once.
pub const IGNORED_IN_LISTS: u8 = 0x78;

/// A schedule as a list that is run at once: the thread is in the low three
/// bits, and any of those that say nothing are set.
pub fn list(rng: &mut Rng, schedule: &[u8]) -> Vec<u8> {
    let bytes = schedule.iter();
    bytes
        .map(|&byte| byte & !IGNORED_IN_LISTS | rng.byte() & IGNORED_IN_LISTS)
        .collect()
}

/// A state for any bundle: one of its own, at times with a breach; bytes at
/// random if the bundle has no state of its own.
pub fn any_state(rng: &mut Rng, b: &[u8]) -> State {
    match Bundle::open_with_code(b) {
        Ok(bundle) if rng.chance(1, 4) => damaged_state(rng, &bundle),
        Ok(bundle) => valid_state(rng, &bundle),
        Err(_) => State {
            threads: [(); THREADS].map(|()| garbage_thread(rng)),
            held: [(); THREADS].map(|()| rng.number() as u32),
            ..State::EMPTY
        },
    }
}

/// A state that is one of this bundle.
pub fn valid_state(rng: &mut Rng, bundle: &Bundle) -> State {
    let mut state = State::EMPTY;
    state.objects = rng.pick(&[1, 1, 2, 3, 8, 31, 32, 32]);
    let garbage = rng.chance(1, 2);
    for (object, class) in state.classes.iter_mut().enumerate() {
        if object < usize::from(state.objects) {
            *class = rng.below(usize::from(bundle.count())) as u8;
        } else if garbage {
            *class = rng.byte();
        }
    }
    state.classes[usize::from(OBJECT_0)] = bundle.exception();
    if garbage {
        state.fields.fill_with(|| garbage_value(rng));
    }
    fill_fields(rng, bundle, &mut state);
    let living = rng.pick(&[1, 4, 8, 8]);
    for t in 0..THREADS {
        state.threads[t] = match rng.chance(living, 8) {
            true => live_thread(rng, bundle, &state),
            false if garbage => garbage_thread(rng),
            false => Thread::EMPTY,
        };
    }
    hold_objects(rng, &mut state);
    for t in 0..THREADS {
        if rng.chance(1, 3) {
            hold_next(rng, bundle, &mut state, t);
        }
    }
    state.settle_words();
    state
}

/// Values for the fields that objects have: mostly as described, at times any.
fn fill_fields(rng: &mut Rng, bundle: &Bundle, state: &mut State) {
    for object in 0..usize::from(state.objects) {
        let fields = bundle.class(state.classes[object]).fields;
        for (number, &descriptor) in fields.iter().enumerate() {
            let held = match rng.chance(1, 8) {
                true => value(rng, state),
                false => value_like(rng, state, &Entry::held(descriptor).bytes()),
            };
            state.fields[object * MAX_FIELDS + number] = held;
        }
    }
}

/// If the thread is about to enter or exit, the object it names is held: by
/// itself, or by another.
fn hold_next(rng: &mut Rng, bundle: &Bundle, state: &mut State, t: usize) {
    let thread = &state.threads[t];
    if !thread.live {
        return;
    }
    let class = bundle.class(thread.class);
    let (Instr::Enter(v, _) | Instr::Exit(v)) = class.instruction(Addr(thread.address)) else {
        return;
    };
    let Value::Ref(object) = thread.variables[usize::from(v.0)] else {
        return;
    };
    let other = rng.below(THREADS);
    let holder = if state.threads[other].live { other } else { t };
    for any in 0..THREADS {
        state.counts[any * OBJECTS + usize::from(object)] = 0;
    }
    let count = rng.pick(&[1, 2, MAX_COUNT - 1, MAX_COUNT]);
    state.counts[rng.pick(&[t, holder]) * OBJECTS + usize::from(object)] = count;
}

/// Gives some objects a holder, its count often at an edge; at times one thread
/// holds them all.
fn hold_objects(rng: &mut Rng, state: &mut State) {
    let mut live: Vec<usize> = (0..THREADS).filter(|&t| state.threads[t].live).collect();
    let holding = rng.pick(&[0, 1, 1, 2, 2, ALL]);
    if holding == ALL && !live.is_empty() {
        live = vec![rng.pick(&live)];
    }
    for object in 0..usize::from(state.objects) {
        if !live.is_empty() && rng.chance(holding, ALL) {
            let any = rng.between(1, 2_047) as u16;
            let count = rng.pick(&[1, 1, 2, MAX_COUNT - 1, MAX_COUNT, MAX_COUNT, any]);
            state.counts[rng.pick(&live) * OBJECTS + object] = count;
        }
    }
}

fn integer(rng: &mut Rng) -> Value {
    let any = rng.number() as i32;
    Value::Int(rng.pick(&[0, 0, 1, -1, i32::MAX, i32::MIN, any]))
}

/// Any value, a reference to no object among them.
fn garbage_value(rng: &mut Rng) -> Value {
    match rng.below(4) {
        0 => Value::Ref(rng.byte()),
        1 => rng.pick(&[Value::ZERO, Value::Null]),
        _ => integer(rng),
    }
}

fn garbage_thread(rng: &mut Rng) -> Thread {
    Thread {
        live: false,
        class: rng.byte(),
        address: rng.number() as u16,
        depth: rng.byte(),
        variables: [(); PLACES].map(|()| garbage_value(rng)),
        stack: [(); PLACES].map(|()| garbage_value(rng)),
    }
}

/// A live thread at some address. Half the time its values follow the row
/// there, so that most steps go through.
fn live_thread(rng: &mut Rng, bundle: &Bundle, state: &State) -> Thread {
    let number = rng.below(usize::from(bundle.count())) as u8;
    let class = bundle.class(number);
    let mut thread = garbage_thread(rng);
    thread.live = true;
    thread.class = number;
    thread.address = rng.between(1, usize::from(class.code_length())) as u16;
    if rng.chance(1, 2) {
        follow_row(rng, class, state, &mut thread);
    } else {
        thread.depth = rng.between(0, class.stack_limit) as u8;
        let depth = usize::from(thread.depth);
        thread.variables[..class.variables].fill_with(|| value(rng, state));
        thread.stack[..depth].fill_with(|| value(rng, state));
    }
    thread
}

/// A value that a place in use may hold.
fn value(rng: &mut Rng, state: &State) -> Value {
    match state.objects {
        0 => integer(rng),
        _ if rng.chance(1, 3) => integer(rng),
        _ if rng.chance(1, 4) => Value::Null,
        objects => Value::Ref(rng.below(usize::from(objects)) as u8),
    }
}

/// Values of the kinds that the thread's row names. Only the generator reads
/// rows here; the machine never does.
fn follow_row(rng: &mut Rng, class: &Class, state: &State, thread: &mut Thread) {
    let row = class.raw_row(Addr(thread.address));
    let depth = row.depth.min(class.stack_limit);
    thread.depth = depth as u8;
    for (v, raw) in row.variables.iter().enumerate() {
        thread.variables[v] = value_like(rng, state, raw);
    }
    for (index, raw) in row.stack[..depth].iter().enumerate() {
        thread.stack[depth - 1 - index] = value_like(rng, state, raw);
    }
}

fn value_like(rng: &mut Rng, state: &State, raw: &[u8; 4]) -> Value {
    let refers = matches!(raw[0], kind::REFERENCE | kind::NULLABLE);
    let alike: Vec<u8> = (0..state.objects)
        .filter(|&object| refers && state.classes[usize::from(object)] == raw[1])
        .collect();
    match raw[0] {
        kind::INT => integer(rng),
        kind::NULLABLE if alike.is_empty() || rng.chance(1, 2) => Value::Null,
        kind::REFERENCE | kind::NULLABLE if !alike.is_empty() => Value::Ref(rng.pick(&alike)),
        _ => value(rng, state),
    }
}

/// A state of this bundle with one breach of what 18 names.
pub fn damaged_state(rng: &mut Rng, bundle: &Bundle) -> State {
    let mut state = valid_state(rng, bundle);
    let t = rng.below(THREADS);
    match rng.below(3) {
        0 => break_thread(rng, bundle, &mut state, t),
        1 => break_objects(rng, bundle, &mut state, t),
        _ => break_word(rng, &mut state),
    }
    state
}

fn break_thread(rng: &mut Rng, bundle: &Bundle, state: &mut State, t: usize) {
    if !state.threads[t].live {
        state.threads[t] = live_thread(rng, bundle, state);
    }
    let thread = &mut state.threads[t];
    let class = bundle.class(thread.class);
    let depth = usize::from(thread.depth);
    let past = Value::Ref(rng.pick(&[state.objects, state.objects + 1, 255]));
    match rng.below(5) {
        0 => thread.class = rng.pick(&[bundle.count(), 8, 255]),
        1 => thread.address = rng.pick(&[0, class.code_length() + 1, 65_535]),
        2 => thread.depth = rng.pick(&[class.stack_limit as u8 + 1, 17, 255]),
        3 if class.variables > 0 => thread.variables[rng.below(class.variables)] = past,
        _ if depth > 0 => thread.stack[rng.below(depth)] = past,
        // Out of use: no breach.
        _ => thread.stack[PLACES - 1] = past,
    }
}

fn break_objects(rng: &mut Rng, bundle: &Bundle, state: &mut State, t: usize) {
    let object = rng.below(OBJECTS);
    let at = t * OBJECTS + object;
    match rng.below(9) {
        0 => state.objects = rng.pick(&[33, 64, 255]),
        1 => state.classes[object] = bundle.count(),
        2 => state.classes[usize::from(OBJECT_0)] = other_class(rng, bundle),
        3 => forget_objects(state),
        4 => state.counts[at] = rng.pick(&[MAX_COUNT + 1, 65_535]),
        // On an object or none, by a live thread or not, beside another or not.
        5 => state.counts[at] = 1,
        6 | 7 => break_field(rng, bundle, state),
        _ => state.counts[(t + 1) % THREADS * OBJECTS + object] = state.counts[at].max(1),
    }
    // So that no count is refused for its word.
    state.settle_words();
}

/// A field refers to no object: one that its class has, if there is any.
fn break_field(rng: &mut Rng, bundle: &Bundle, state: &mut State) {
    let objects = 0..usize::from(state.objects);
    let count = |object: usize| bundle.class(state.classes[object]).fields.len();
    let used: Vec<usize> = objects
        .flat_map(|object| (0..count(object)).map(move |number| object * MAX_FIELDS + number))
        .collect();
    let place = match used.is_empty() {
        // Out of use: no breach.
        true => rng.below(state.fields.len()),
        false => rng.pick(&used),
    };
    state.fields[place] = Value::Ref(rng.pick(&[state.objects, state.objects + 1, 255]));
}

/// A class other than the exception class: one of the bundle's if it has any.
fn other_class(rng: &mut Rng, bundle: &Bundle) -> u8 {
    match bundle.count() {
        1 => 1,
        count => (bundle.exception() + rng.between(1, usize::from(count) - 1) as u8) % count,
    }
}

/// No object at all, and nothing that speaks of one.
fn forget_objects(state: &mut State) {
    state.objects = 0;
    state.counts.fill(0);
    for thread in &mut state.threads {
        for value in thread.variables.iter_mut().chain(&mut thread.stack) {
            if matches!(value, Value::Ref(_)) {
                *value = Value::ZERO;
            }
        }
    }
}
