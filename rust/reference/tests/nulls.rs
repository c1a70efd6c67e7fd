//! Fields and null in the machine: every sentence of the request, from both
//! sides. Numbers are those of the readings.

mod common;

use common::{judge, run, run_through};
use generator::builder::{Draft, Method, Row};
use reference::bundle::{Addr, Field, Instr, Var, INT};
use reference::entries::Entry;
use reference::machine::{answer, fresh, step, State, Value};
use reference::state::OBJECTS;

/// The exception class.
const X: u8 = 2;
const HANDLER: Addr = Addr(4);
const V: Var = Var(0);
const NULL: Value = Value::Null;
const ZERO: Value = Value::ZERO;
/// Fields of class 0: an integer, and references of classes 1 and 0.
const NUMBER: Field = field(0, 0);
const OTHER: Field = field(0, 1);
const FIELDS: [&[u8]; 3] = [&[INT, 1, 0], &[1, INT], &[X, INT, 0]];

const fn field(class: u8, number: u8) -> Field {
    Field { class, number }
}

/// Main with this instruction and three returns, beside class 1 (an integer
/// and a class 1 as its arguments) and class X.
fn bundle_of(instr: Instr, stack_limit: usize) -> Vec<u8> {
    let top = Row::new(&[Entry::Top], &[]);
    let main = Method {
        fields: FIELDS[0].to_vec(),
        variables: 1,
        stack_limit,
        code: vec![instr, Instr::Return, Instr::Return, Instr::Return],
        rows: vec![top; 4],
        ..Method::default()
    };
    let idle = |arguments: &[u8], class: usize| Method {
        arguments: arguments.to_vec(),
        fields: FIELDS[class].to_vec(),
        variables: arguments.len(),
        code: vec![Instr::Return],
        rows: vec![Row::new(&vec![Entry::Top; arguments.len()], &[])],
        ..Method::default()
    };
    let draft = Draft {
        methods: vec![main, idle(&[INT, 1], 1), idle(&[], 2)],
        exception: X,
    };
    draft.lay_out()
}

fn bundle(instr: Instr) -> Vec<u8> {
    bundle_of(instr, 3)
}

/// Object 0 of X, 1 of class 0, 2 of class 1, 3 of class 0; thread 0 at
/// address 1 with this variable and this stack, bottom first.
fn state(variable: Value, stack: &[Value]) -> State {
    let mut state = State::EMPTY;
    state.objects = 4;
    state.classes[..4].copy_from_slice(&[X, 0, 1, 0]);
    let thread = &mut state.threads[0];
    thread.live = true;
    thread.address = 1;
    thread.variables[0] = variable;
    thread.depth = stack.len() as u8;
    thread.stack[..stack.len()].copy_from_slice(stack);
    state
}

/// What one step answers.
fn answers(instr: Instr, variable: Value, stack: &[Value]) -> u8 {
    run(&bundle(instr), &state(variable, stack), false).0
}

/// The state after one step that answers this.
fn after(instr: Instr, before: &State, wanted: u8) -> State {
    let (answer, next) = run(&bundle(instr), before, false);
    assert_eq!(answer, wanted, "{instr:?}");
    next
}

/// The state with thread 0 at this address over this stack, all else as it was.
fn moved(before: &State, address: u16, stack: &[Value]) -> State {
    let mut state = before.clone();
    let thread = &mut state.threads[0];
    thread.address = address;
    thread.stack.fill(ZERO);
    thread.stack[..stack.len()].copy_from_slice(stack);
    thread.depth = stack.len() as u8;
    state
}

/// Each instruction that throws where null is, with what it finds: no other
/// value than null stands in it.
fn thrown(handler: Option<Addr>) -> [(Instr, State); 3] {
    [
        (Instr::Enter(V, handler), state(NULL, &[])),
        (Instr::Getfield(OTHER, handler), state(ZERO, &[NULL])),
        (Instr::Putfield(OTHER, handler), state(ZERO, &[NULL, NULL])),
    ]
}

// What fields hold at first (38).

#[test]
fn a_fresh_machine_has_the_fields_of_object_0() {
    let (answer, state) = fresh(&bundle(Instr::Return));
    assert_eq!(answer, 0);
    assert_eq!(state.fields[..4], [NULL, ZERO, NULL, ZERO]);
    assert!(state.fields[4..].iter().all(|&value| value == ZERO));
}

#[test]
fn a_machine_of_no_bundle_has_zeros() {
    assert_eq!(fresh(&[]), (17, State::EMPTY));
    assert!(State::EMPTY.fields.iter().all(|&value| value == ZERO));
    let mut bad = bundle(Instr::Return);
    bad[3] = 15;
    assert_eq!(fresh(&bad), (17, State::EMPTY));
}

#[test]
fn new_writes_four_places() {
    let mut before = state(ZERO, &[]);
    before.fields.fill(Value::Int(7));
    for (class, wanted) in [
        (0, [ZERO, NULL, NULL, ZERO]),
        (1, [NULL, ZERO, ZERO, ZERO]),
        (X, [NULL, ZERO, NULL, ZERO]),
    ] {
        let next = after(Instr::New(class, None), &before, 0);
        assert_eq!(next.fields[16..20], wanted);
        assert_eq!(next.fields[..16], before.fields[..16]);
        assert_eq!(next.fields[20..], before.fields[20..]);
    }
}

#[test]
fn a_failed_new_writes_no_field() {
    let mut before = state(ZERO, &[]);
    before.fields.fill(Value::Int(7));
    let b = bundle(Instr::New(0, Some(HANDLER)));
    let (answer, next) = run(&b, &before, true);
    assert_eq!((answer, next.fields), (0, before.fields));
}

#[test]
fn the_last_object_has_fields_too() {
    let mut before = state(ZERO, &[]);
    before.objects = OBJECTS as u8 - 1;
    let next = after(Instr::New(0, None), &before, 0);
    assert_eq!(next.fields[124..], [ZERO, NULL, NULL, ZERO]);
    let full = after(Instr::New(0, None), &next_at_1(&next), 2);
    assert_eq!(full.fields, next.fields);
}

fn next_at_1(state: &State) -> State {
    moved(state, 1, &[])
}

// getfield (36).

#[test]
fn getfield_gives_what_the_field_holds() {
    let mut before = state(ZERO, &[Value::Ref(3)]);
    for held in [NULL, Value::Ref(2)] {
        before.fields[3 * 4 + 1] = held;
        let next = after(Instr::Getfield(OTHER, None), &before, 0);
        assert_eq!(next, moved(&before, 2, &[held]));
    }
    before.fields[3 * 4] = Value::Int(-5);
    let next = after(Instr::Getfield(NUMBER, None), &before, 0);
    assert_eq!(next, moved(&before, 2, &[Value::Int(-5)]));
}

#[test]
fn getfield_does_not_look_at_what_it_pushes() {
    let mut before = state(ZERO, &[Value::Ref(3)]);
    before.fields[3 * 4] = Value::Ref(1);
    before.fields[3 * 4 + 1] = Value::Int(9);
    for (from, held) in [(NUMBER, Value::Ref(1)), (OTHER, Value::Int(9))] {
        let next = after(Instr::Getfield(from, None), &before, 0);
        assert_eq!(next, moved(&before, 2, &[held]));
    }
}

#[test]
fn getfield_faults() {
    let get = |stack: &[Value]| answers(Instr::Getfield(NUMBER, None), ZERO, stack);
    assert_eq!(get(&[]), 11);
    assert_eq!(get(&[Value::Ref(1)]), 0);
    assert_eq!(get(&[Value::Ref(2)]), 13, "of class 1");
    assert_eq!(get(&[Value::Ref(0)]), 13, "of class X");
    assert_eq!(get(&[ZERO]), 13);
    assert_eq!(get(&[Value::Ref(1), ZERO]), 13, "the top is the owner");
}

#[test]
fn getfield_needs_no_room() {
    let stack = [ZERO, ZERO, Value::Ref(1)];
    assert_eq!(answers(Instr::Getfield(NUMBER, None), ZERO, &stack), 0);
    assert_eq!(answers(Instr::Push0, ZERO, &stack), 12);
}

// putfield (36).

#[test]
fn putfield_writes_one_place() {
    for value in [NULL, Value::Ref(2)] {
        let before = state(ZERO, &[Value::Ref(3), value]);
        let next = after(Instr::Putfield(OTHER, None), &before, 0);
        let mut wanted = moved(&before, 2, &[]);
        wanted.fields[3 * 4 + 1] = value;
        assert_eq!(next, wanted);
    }
}

#[test]
fn putfield_leaves_what_lies_below() {
    let before = state(ZERO, &[Value::Int(4), Value::Ref(1), Value::Int(6)]);
    let next = after(Instr::Putfield(NUMBER, None), &before, 0);
    let mut wanted = moved(&before, 2, &[Value::Int(4)]);
    wanted.fields[4] = Value::Int(6);
    assert_eq!(next, wanted);
}

#[test]
fn putfield_faults_by_its_value() {
    let put = |to, value| answers(Instr::Putfield(to, None), ZERO, &[Value::Ref(1), value]);
    assert_eq!(put(NUMBER, Value::Int(1)), 0);
    assert_eq!(put(NUMBER, Value::Ref(1)), 13);
    assert_eq!(put(NUMBER, NULL), 13);
    assert_eq!(put(OTHER, Value::Ref(2)), 0);
    assert_eq!(put(OTHER, NULL), 0);
    assert_eq!(put(OTHER, Value::Ref(1)), 13);
    assert_eq!(put(OTHER, ZERO), 13);
}

#[test]
fn putfield_faults_by_its_owner() {
    let put = |stack: &[Value]| answers(Instr::Putfield(NUMBER, None), ZERO, stack);
    assert_eq!(put(&[]), 11);
    assert_eq!(put(&[ZERO]), 11);
    assert_eq!(put(&[Value::Ref(3), ZERO]), 0);
    assert_eq!(put(&[Value::Ref(2), ZERO]), 13);
    assert_eq!(put(&[ZERO, ZERO]), 13);
    assert_eq!(put(&[ZERO, Value::Ref(3)]), 13, "the value lies on top");
}

#[test]
fn a_value_that_mismatches_comes_before_null() {
    let put = |value| answers(Instr::Putfield(NUMBER, None), ZERO, &[NULL, value]);
    assert_eq!(put(ZERO), 2);
    assert_eq!(put(Value::Ref(1)), 13);
    assert_eq!(put(NULL), 13);
}

// Null is thrown (35).

#[test]
fn null_is_caught() {
    for (instr, before) in thrown(Some(HANDLER)) {
        let next = after(instr, &before, 0);
        assert_eq!(next, moved(&before, HANDLER.0, &[Value::Ref(0)]));
    }
}

#[test]
fn null_is_uncaught() {
    for (instr, before) in thrown(None) {
        let mut wanted = moved(&before, 0, &[]);
        wanted.threads[0].live = false;
        wanted.threads[0].variables[0] = ZERO;
        assert_eq!(after(instr, &before, 2), wanted);
    }
}

#[test]
fn null_uncaught_under_a_lock() {
    for (instr, mut before) in thrown(None) {
        (before.counts[1], before.held[0]) = (1, 2);
        assert_eq!(after(instr, &before, 15), before);
    }
    for (instr, mut before) in thrown(Some(HANDLER)) {
        (before.counts[1], before.held[0]) = (1, 2);
        assert_eq!(after(instr, &before, 0).counts, before.counts);
    }
}

#[test]
fn what_lies_below_null_goes() {
    let below = [Value::Ref(1), Value::Int(8)];
    let before = state(NULL, &[below[0], below[1], NULL]);
    for instr in [
        Instr::Enter(V, Some(HANDLER)),
        Instr::Getfield(OTHER, Some(HANDLER)),
    ] {
        let next = after(instr, &before, 0);
        assert_eq!(next, moved(&before, HANDLER.0, &[Value::Ref(0)]));
    }
}

#[test]
fn monitorenter_on_null_never_waits() {
    let held = |variable| {
        let mut before = state(variable, &[]);
        before.threads[1] = before.threads[0];
        (before.counts[OBJECTS], before.held[1]) = (1, 1); // thread 1 holds object 0
        before
    };
    let instr = Instr::Enter(V, Some(HANDLER));
    assert_eq!(after(instr, &held(Value::Ref(0)), 3), held(Value::Ref(0)));
    let next = after(instr, &held(NULL), 0);
    assert_eq!(next, moved(&held(NULL), HANDLER.0, &[Value::Ref(0)]));
}

#[test]
fn monitorenter_on_null_counts_nothing() {
    let next = after(Instr::Enter(V, Some(HANDLER)), &state(NULL, &[]), 0);
    assert!(next.counts.iter().all(|&count| count == 0));
    let next = after(
        Instr::Enter(V, Some(HANDLER)),
        &state(Value::Ref(1), &[]),
        0,
    );
    assert_eq!((next.counts[1], next.threads[0].address), (1, 2));
}

#[test]
fn a_handler_needs_a_stack() {
    let enter = |handler, variable, stack_limit| {
        let b = bundle_of(Instr::Enter(V, handler), stack_limit);
        run(&b, &state(variable, &[]), false).0
    };
    assert_eq!(enter(Some(HANDLER), NULL, 0), 12);
    assert_eq!(enter(Some(HANDLER), NULL, 1), 0);
    assert_eq!(enter(None, NULL, 0), 2);
    assert_eq!(enter(Some(HANDLER), Value::Ref(1), 0), 0);
    assert_eq!(enter(Some(HANDLER), ZERO, 0), 13);
}

#[test]
fn new_fails_plays_no_part() {
    for (instr, before) in thrown(Some(HANDLER)) {
        let b = bundle(instr);
        assert_eq!(run(&b, &before, true), run(&b, &before, false));
    }
    let met = [
        (Instr::Enter(V, None), state(Value::Ref(1), &[])),
        (Instr::Getfield(NUMBER, None), state(ZERO, &[Value::Ref(1)])),
        (
            Instr::Putfield(NUMBER, None),
            state(ZERO, &[Value::Ref(1), ZERO]),
        ),
    ];
    for (instr, before) in met {
        let b = bundle(instr);
        assert_eq!(run(&b, &before, true).0, 0);
        assert_eq!(run(&b, &before, true), run(&b, &before, false));
    }
}

// Where null is a wrong kind (39).

#[test]
fn null_is_no_integer() {
    for instr in [Instr::Inc, Instr::If(HANDLER)] {
        assert_eq!(answers(instr, ZERO, &[NULL]), 13);
        assert_eq!(answers(instr, ZERO, &[ZERO]), 0);
    }
}

#[test]
fn monitorexit_and_athrow_want_an_object() {
    assert_eq!(answers(Instr::Exit(V), NULL, &[]), 13);
    assert_eq!(answers(Instr::Exit(V), Value::Ref(1), &[]), 14);
    for handler in [None, Some(HANDLER)] {
        let throw = |top| answers(Instr::Athrow(handler), ZERO, &[top]);
        assert_eq!(throw(NULL), 13);
        assert_ne!(throw(Value::Ref(0)), 13);
    }
}

#[test]
fn start_wants_objects() {
    let start =
        |object, argument, number| answers(Instr::Start(1), ZERO, &[object, argument, number]);
    let (one, five) = (Value::Ref(2), Value::Int(5));
    assert_eq!(start(one, one, five), 0);
    assert_eq!(start(NULL, one, five), 13);
    assert_eq!(start(one, NULL, five), 13);
    assert_eq!(start(one, one, NULL), 13);
}

#[test]
fn load_store_and_pop_take_null() {
    let next = after(Instr::Load(V), &state(NULL, &[]), 0);
    assert_eq!(next, moved(&state(NULL, &[]), 2, &[NULL]));
    let next = after(Instr::Store(V), &state(ZERO, &[NULL]), 0);
    assert_eq!(next, moved(&state(NULL, &[]), 2, &[]));
    let next = after(Instr::Pop, &state(ZERO, &[NULL]), 0);
    assert_eq!(next, moved(&state(ZERO, &[]), 2, &[]));
}

#[test]
fn null_out_of_use_becomes_0() {
    let mut before = state(NULL, &[NULL, NULL]);
    before.threads[0].variables[1] = NULL;
    before.threads[0].stack[2] = NULL;
    let next = after(Instr::Return, &before, 1);
    assert_eq!(next.threads[0].variables[..2], [ZERO, NULL], "V is 1");
    assert_eq!(next.threads[0].stack[..3], [ZERO, ZERO, NULL]);
}

// 18 (37).

/// What a step answers where this field place holds a reference to no object.
fn astray(place: usize) -> u8 {
    let mut state = state(ZERO, &[]);
    state.fields[place] = Value::Ref(4);
    run(&bundle(Instr::Push0), &state, false).0
}

#[test]
fn a_field_refers_to_an_object() {
    assert_eq!(astray(4 + 1), 18);
    assert_eq!(astray(4), 18, "an integer's place too");
    assert_eq!(astray(2), 18, "object 0");
    assert_eq!(astray(3 * 4 + 2), 18);
}

#[test]
fn fields_out_of_use_are_not_looked_at() {
    assert_eq!(astray(4 + 3), 0, "class 0 has three fields");
    assert_eq!(astray(2 * 4 + 2), 0, "class 1 has two");
    assert_eq!(astray(4 * 4), 0, "there is no object 4");
    assert_eq!(astray(127), 0);
}

#[test]
fn a_field_that_mismatches_is_no_18() {
    let mut state = state(ZERO, &[]);
    state.fields[4] = NULL;
    state.fields[5] = Value::Int(3);
    state.fields[6] = Value::Ref(3);
    state.fields[8] = Value::Ref(0);
    assert_eq!(run(&bundle(Instr::Push0), &state, false).0, 0);
}

#[test]
fn all_objects_with_all_fields() {
    let full = |last| {
        let mut state = state(ZERO, &[]);
        state.objects = OBJECTS as u8;
        state.fields.fill(Value::Ref(31));
        state.fields[126] = last;
        run(&bundle(Instr::Push0), &state, false).0
    };
    assert_eq!(full(Value::Ref(31)), 0);
    assert_eq!(full(Value::Ref(32)), 18);
    assert_eq!(full(Value::Ref(255)), 18);
    assert_eq!(full(NULL), 0);
}

// An accepted bundle that does it all.

/// Main makes a box and reads a lock from it, which is null and caught; then
/// it puts a lock there, starts a thread with the box, and returns. The thread
/// reads the lock, takes it and gives it back.
fn sharing() -> Vec<u8> {
    let (holder, lock) = (Entry::fresh(1), Entry::fresh(0));
    let found = Entry::Nullable { class: 0 };
    let held = Entry::reference(0, 1, -1);
    let from = field(1, 0);
    let top = Entry::Top;
    let main = vec![
        (Instr::New(1, None), Row::new(&[top, top], &[])),
        (Instr::Store(V), Row::new(&[top, top], &[holder])),
        (Instr::Load(V), Row::new(&[holder, top], &[])),
        (
            Instr::Getfield(from, None),
            Row::new(&[holder, top], &[holder]),
        ),
        (Instr::Store(Var(1)), Row::new(&[holder, top], &[found])),
        (
            Instr::Enter(Var(1), Some(Addr(9))),
            Row::new(&[holder, found], &[]),
        ),
        (Instr::Exit(Var(1)), Row::new(&[holder, held], &[])),
        (Instr::Return, Row::new(&[holder, lock], &[])),
        (Instr::Pop, Row::new(&[holder, found], &[Entry::fresh(0)])),
        (Instr::Load(V), Row::new(&[holder, top], &[])),
        (Instr::New(0, None), Row::new(&[holder, top], &[holder])),
        (
            Instr::Putfield(from, None),
            Row::new(&[holder, top], &[lock, holder]),
        ),
        (Instr::Load(V), Row::new(&[holder, top], &[])),
        (Instr::Load(V), Row::new(&[holder, top], &[holder])),
        (Instr::Start(1), Row::new(&[holder, top], &[holder, holder])),
        (Instr::Return, Row::new(&[holder, top], &[])),
    ];
    let worker = vec![
        (
            Instr::Load(V),
            Row::new(&[Entry::Nullable { class: 1 }], &[]),
        ),
        (
            Instr::Getfield(from, None),
            Row::new(
                &[Entry::Nullable { class: 1 }],
                &[Entry::Nullable { class: 1 }],
            ),
        ),
        (Instr::Store(V), Row::new(&[top], &[found])),
        (Instr::Enter(V, None), Row::new(&[found], &[])),
        (Instr::Exit(V), Row::new(&[held], &[])),
        (Instr::Return, Row::new(&[lock], &[])),
    ];
    let method = |arguments: &[u8], fields: &[u8], lines: Vec<(Instr, Row)>| {
        let (code, rows): (Vec<Instr>, Vec<Row>) = lines.into_iter().unzip();
        Method {
            arguments: arguments.to_vec(),
            fields: fields.to_vec(),
            variables: rows[0].variables.len(),
            stack_limit: 2,
            code,
            rows,
        }
    };
    let draft = Draft {
        methods: vec![method(&[], &[], main), method(&[1], &[0], worker)],
        exception: 0,
    };
    draft.lay_out()
}

#[test]
fn a_lock_is_shared_through_a_field() {
    let bytes = sharing();
    assert_eq!(judge(&bytes).number, 0, "{}", judge(&bytes));
    let (answers, mut state) = run_through(&bytes, 13);
    assert_eq!(answers, vec![0; 13]);
    assert_eq!(state.fields[4], Value::Ref(2), "the box is object 1");
    assert!(state.threads[1].live);
    for _ in 0..4 {
        assert_eq!(step(&bytes, &mut state, 1, false), 0);
    }
    assert_eq!(state.count(1, 2), 1, "thread 1 holds the lock");
    assert_eq!(step(&bytes, &mut state, 0, false), answer::RETURNED);
    assert_eq!(step(&bytes, &mut state, 1, false), 0);
    assert_eq!(step(&bytes, &mut state, 1, false), answer::RETURNED);
}
