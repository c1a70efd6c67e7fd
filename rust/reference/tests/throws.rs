//! The thrown object: every sentence of the request, from both sides.
//!
//! Class 1 is the exception class here, unless a test says otherwise.

mod common;

use common::{judge, run, run_through};
use generator::builder::{Draft, Method, Row};
use reference::bundle::{find_record, Addr, Instr, Var, Verdict};
use reference::entries::Entry;
use reference::machine::{fresh, step, State, Value};

const INTEGER: Entry = Entry::Int;
const TOP: Entry = Entry::Top;
const EXCEPTION: u8 = 1;
const HANDLER: Addr = Addr(4);
const V: Var = Var(0);

/// A reference of the exception class.
const fn thrown(dip: i16, end: i16) -> Entry {
    Entry::reference(EXCEPTION, dip, end)
}

/// A reference of another class.
const fn other(dip: i16, end: i16) -> Entry {
    Entry::reference(0, dip, end)
}

fn row(variables: &[Entry], stack: &[Entry]) -> Row {
    Row::new(variables, stack)
}

/// Main with this code, beside a class that only returns.
fn bundle(stack_limit: usize, code: &[Instr], rows: &[Row]) -> Vec<u8> {
    let main = Method {
        variables: rows[0].variables.len(),
        stack_limit,
        code: code.to_vec(),
        rows: rows.to_vec(),
        ..Method::default()
    };
    let idle = Method {
        code: vec![Instr::Return],
        rows: vec![Row::default()],
        ..Method::default()
    };
    let draft = Draft {
        methods: vec![main, idle],
        exception: EXCEPTION,
    };
    draft.lay_out()
}

/// Why the rule at address 2 fails, if it does: address 1 ends the thread,
/// row 3 is the next one, row 4 the handler's.
fn why(instr: Instr, own: Row, next: Row, at: Row) -> Option<u8> {
    let first = row(&vec![TOP; own.variables.len()], &[]);
    let code = [Instr::Return, instr, Instr::Return, Instr::Return];
    let verdict = judge(&bundle(3, &code, &[first, own, next, at]));
    let found = (verdict.number, verdict.class, verdict.address) == (9, 0, 2);
    found.then_some(verdict.why)
}

/// athrow with a handler whose row is `at`.
fn caught(own: Row, at: Row) -> Option<u8> {
    let next = row(&vec![TOP; own.variables.len()], &[]);
    why(Instr::Athrow(Some(HANDLER)), own, next, at)
}

/// athrow without one.
fn uncaught(own: Row) -> Option<u8> {
    let any = row(&vec![TOP; own.variables.len()], &[]);
    why(Instr::Athrow(None), own, any.clone(), any)
}

/// new of class 0 on an empty stack, with a handler whose row is `at`.
fn new(variable: Entry, at: Row) -> Option<u8> {
    let next = row(&[variable], &[other(0, 0)]);
    let instr = Instr::New(0, Some(HANDLER));
    why(instr, row(&[variable], &[]), next, at)
}

/// Reading 16.
#[test]
fn the_spare_byte_names_a_class() {
    let good = bundle(0, &[Instr::Return], &[Row::default()]);
    let at = good.len() - 5;
    assert_eq!(good[at], EXCEPTION);
    let with = |exception: u8| {
        let mut bytes = good.clone();
        bytes[at] = exception;
        bytes
    };
    assert_eq!(judge(&with(0)), Verdict::new(0, 2, 0));
    assert_eq!(judge(&with(1)), Verdict::new(0, 2, 0));
    assert_eq!(judge(&with(2)), Verdict::new(3, 0, 0));
    assert_eq!(judge(&with(255)), Verdict::new(3, 0, 0));
    assert_eq!(find_record(&with(1), 0).len(), 5);
    assert!(find_record(&with(2), 0).is_empty());
    assert_eq!(fresh(&with(2)), (17, State::EMPTY));
    // 2 comes before it, and 4 behind it.
    let changed = |at: usize, byte: u8, exception: u8| {
        let mut bytes = with(exception);
        bytes[at] = byte;
        judge(&bytes)
    };
    let (last, fields) = (good.len() - 1, good.len() - 8 - 3);
    assert_eq!(changed(last, 0, 2), Verdict::new(2, 0, 0));
    assert_eq!(changed(fields, 5, 2), Verdict::new(3, 0, 0));
    assert_eq!(changed(fields, 5, 1), Verdict::new(4, 1, 0));
}

/// Reading 17.
#[test]
fn the_handler_s_row_has_depth_1() {
    let throw = |stack: &[Entry]| caught(row(&[TOP], &[thrown(0, 0)]), row(&[TOP], stack));
    let fail = |stack: &[Entry]| new(TOP, row(&[TOP], stack));
    for handled in [&throw as &dyn Fn(&[Entry]) -> Option<u8>, &fail] {
        assert_eq!(handled(&[thrown(0, 0)]), None);
        assert_eq!(handled(&[]), Some(0));
        assert_eq!(handled(&[thrown(0, 0), thrown(0, 0)]), Some(0));
    }
}

/// Reading 18: (0,0) of the exception class.
#[test]
fn a_failed_new_fits_the_handler_s_entry() {
    let fail = |entry: Entry| new(TOP, row(&[TOP], &[entry]));
    assert_eq!(fail(thrown(0, 0)), None);
    assert_eq!(fail(thrown(0, -1)), None);
    assert_eq!(fail(TOP), None);
    assert_eq!(fail(INTEGER), Some(1));
    assert_eq!(fail(other(0, 0)), Some(1));
    assert_eq!(fail(thrown(1, 0)), Some(2));
    assert_eq!(fail(thrown(1, 1)), Some(2));
    assert_eq!(fail(thrown(0, 1)), Some(3));
}

/// Reading 18: the top's own pair.
#[test]
fn athrow_s_top_fits_the_handler_s_entry() {
    let throw = |top: Entry, entry: Entry| caught(row(&[], &[top]), row(&[], &[entry]));
    assert_eq!(throw(thrown(1, -1), thrown(1, -1)), None);
    assert_eq!(throw(thrown(1, -1), thrown(0, -2)), None);
    assert_eq!(throw(thrown(1, 0), TOP), None);
    assert_eq!(throw(thrown(1, -1), TOP), Some(3));
    assert_eq!(throw(thrown(1, -1), INTEGER), Some(1));
    assert_eq!(throw(thrown(1, -1), other(0, -1)), Some(1));
    assert_eq!(throw(thrown(1, -1), thrown(2, -1)), Some(2));
    assert_eq!(throw(thrown(1, -1), thrown(1, 0)), Some(3));
}

/// Reading 19: exactly the exception class, else why 0.
#[test]
fn athrow_takes_a_reference_of_the_exception_class() {
    let throw = |stack: &[Entry]| caught(row(&[], stack), row(&[], &[TOP]));
    let end = |stack: &[Entry]| uncaught(row(&[], stack));
    for athrow in [&throw as &dyn Fn(&[Entry]) -> Option<u8>, &end] {
        assert_eq!(athrow(&[thrown(2, 1)]), None);
        assert_eq!(athrow(&[other(2, 1)]), Some(0));
        assert_eq!(athrow(&[INTEGER]), Some(0));
        assert_eq!(athrow(&[TOP]), Some(0));
        assert_eq!(athrow(&[]), Some(0));
        // Only the top is thrown.
        assert_eq!(athrow(&[other(0, 0), thrown(0, 0)]), Some(0));
        assert_eq!(athrow(&[thrown(0, 0), other(0, 0)]), None);
    }
}

/// Reading 19.
#[test]
fn what_must_go_at_a_throw() {
    let held = thrown(1, -1);
    let keeps = |variable: Entry| row(&[variable], &[thrown(0, 0)]);
    // With a handler, the top and the variables need not go; the rest must.
    assert_eq!(caught(row(&[held], &[held]), row(&[held], &[held])), None);
    let over = |rest: Entry| {
        let own = row(&[TOP], &[thrown(0, 0), rest]);
        caught(own, row(&[TOP], &[TOP]))
    };
    assert_eq!(over(thrown(3, 0)), None);
    assert_eq!(over(held), Some(0));
    assert_eq!(over(other(1, -1)), Some(0));
    // With none, all must.
    assert_eq!(uncaught(keeps(thrown(1, 0))), None);
    assert_eq!(uncaught(keeps(held)), Some(0));
    assert_eq!(uncaught(row(&[TOP], &[held])), Some(0));
    assert_eq!(uncaught(row(&[TOP], &[thrown(0, 0), held])), Some(0));
    assert_eq!(uncaught(row(&[TOP], &[thrown(0, 0), other(0, 0)])), None);
}

/// A failed new's stack must go, and without handler its variables.
#[test]
fn what_must_go_at_a_failed_new() {
    let new = |variable: Entry, stack: Entry, handler: Option<Addr>| {
        let next = row(&[variable], &[TOP, stack]);
        let at = row(&[variable], &[TOP]);
        why(Instr::New(0, handler), row(&[variable], &[stack]), next, at)
    };
    let held = other(1, -1);
    assert_eq!(new(TOP, other(1, 0), Some(HANDLER)), None);
    assert_eq!(new(TOP, held, Some(HANDLER)), Some(0));
    assert_eq!(new(held, TOP, Some(HANDLER)), None);
    assert_eq!(new(held, TOP, None), Some(0));
    assert_eq!(new(TOP, held, None), Some(0));
    assert_eq!(new(TOP, other(1, 0), None), None);
}

/// Row l+1, then the handler's variables, then its only entry.
#[test]
fn which_misfit_of_a_throw_is_told() {
    let throw = |variable: Entry, entry: Entry| {
        let own = row(&[other(0, 0)], &[thrown(0, 0)]);
        caught(own, row(&[variable], &[entry]))
    };
    assert_eq!(throw(TOP, TOP), None);
    assert_eq!(throw(INTEGER, TOP), Some(1));
    assert_eq!(throw(other(1, 0), INTEGER), Some(2));
    assert_eq!(throw(other(0, 1), INTEGER), Some(3));
    assert_eq!(throw(TOP, INTEGER), Some(1));
    let new = |next: Entry, variable: Entry, entry: Entry| {
        let next = row(&[other(0, 0)], &[next]);
        let at = row(&[variable], &[entry]);
        why(
            Instr::New(0, Some(HANDLER)),
            row(&[other(0, 0)], &[]),
            next,
            at,
        )
    };
    assert_eq!(new(other(0, 1), other(1, 0), INTEGER), Some(3));
    assert_eq!(new(TOP, other(1, 0), INTEGER), Some(2));
    assert_eq!(new(TOP, TOP, INTEGER), Some(1));
    assert_eq!(new(TOP, TOP, thrown(0, 0)), None);
    // A throw's asks come before all of it.
    assert_eq!(
        caught(row(&[TOP], &[INTEGER]), row(&[INTEGER], &[TOP])),
        Some(0)
    );
    assert_eq!(
        caught(row(&[TOP], &[thrown(0, 0)]), row(&[INTEGER], &[])),
        Some(0)
    );
}

/// Reading 20: without a place on the stack no handler's row can be right.
#[test]
fn a_handler_needs_a_stack() {
    let code = [Instr::New(0, Some(Addr(2))), Instr::Return];
    let mut bytes = bundle(0, &code, &[Row::default(), Row::default()]);
    assert_eq!(judge(&bytes), Verdict::new(9, 0, 1).because(0));
    // The second row's depth is the record's last byte.
    bytes[9] = 1;
    assert_eq!(judge(&bytes), Verdict::new(8, 0, 2));
}

/// Reading 21: the handler is the next address, and what it finds there, made
/// or thrown, is kept and locked.
fn locks_what_it_finds() -> Vec<u8> {
    let code = [
        Instr::New(EXCEPTION, Some(Addr(2))),
        Instr::Store(V),
        Instr::Enter(V, None),
        Instr::Exit(V),
        Instr::Return,
    ];
    let rows = [
        row(&[TOP], &[]),
        row(&[TOP], &[thrown(0, 0)]),
        row(&[thrown(0, 0)], &[]),
        row(&[thrown(1, -1)], &[]),
        row(&[thrown(0, 0)], &[]),
    ];
    bundle(1, &code, &rows)
}

#[test]
fn object_0_may_be_locked() {
    let bytes = locks_what_it_finds();
    assert_eq!(judge(&bytes), Verdict::new(0, 2, 0));
    for (fails, object) in [(false, 1), (true, 0)] {
        let (_, mut state) = fresh(&bytes);
        for place in ["new", "store", "monitorenter"] {
            let (answer, next) = run(&bytes, &state, fails);
            assert_eq!(answer, 0, "{place}");
            state = next;
        }
        assert_eq!(state.threads[0].variables[0], Value::Ref(object));
        assert_eq!(state.count(0, usize::from(object)), 1);
        assert_eq!(state.objects, 1 + object);
        state = run(&bytes, &state, fails).1;
        assert_eq!(run(&bytes, &state, fails).0, 1);
    }
}

/// Reading 21: object 0 is taken by start as any object of its class.
#[test]
fn object_0_may_be_started() {
    let code = [
        Instr::New(0, Some(Addr(3))),
        Instr::Return,
        Instr::Start(EXCEPTION),
        Instr::Return,
    ];
    let rows = [
        row(&[], &[]),
        row(&[], &[other(0, 0)]),
        row(&[], &[thrown(0, 0)]),
        row(&[], &[]),
    ];
    let bytes = bundle(1, &code, &rows);
    assert_eq!(judge(&bytes), Verdict::new(0, 2, 0));
    let (_, state) = fresh(&bytes);
    let state = run(&bytes, &state, true).1;
    let (answer, state) = run(&bytes, &state, false);
    assert_eq!((answer, state.threads[1].live), (0, true));
    assert_eq!(state.threads[1].class, EXCEPTION);
}

/// Reading 22.
#[test]
fn a_fresh_machine_has_object_0() {
    let (answer, state) = fresh(&locks_what_it_finds());
    assert_eq!(answer, 0);
    assert_eq!((state.objects, state.classes[0]), (1, EXCEPTION));
    assert_eq!(state.classes[1..], [0; 31]);
    assert_eq!(state.counts, [0; 256]);
    assert_eq!(fresh(&[]), (17, State::EMPTY));
}

/// Reading 23: 18 without object 0, or where it is of another class.
#[test]
fn a_state_has_object_0_of_the_exception_class() {
    let bytes = locks_what_it_finds();
    let (_, state) = fresh(&bytes);
    assert_eq!(run(&bytes, &state, false).0, 0);
    let mut without = state.clone();
    without.objects = 0;
    assert_eq!(run(&bytes, &without, false), (18, without.clone()));
    let mut another = state.clone();
    another.classes[0] = 0;
    assert_eq!(run(&bytes, &another, false), (18, another.clone()));
    // It comes before 5.
    assert_eq!(step(&bytes, &mut another, 8, false), 18);
    assert_eq!(run(&bytes, &State::EMPTY, false), (18, State::EMPTY));
}

/// Main stands at an athrow, with these values on its stack (bottom first)
/// and object 1 of class 0 beside object 0 and object 2 of the exception
/// class. Rows are never read here.
fn at_athrow(handler: Option<Addr>, stack: &[Value]) -> (Vec<u8>, State) {
    let code = [Instr::Athrow(handler), Instr::Return];
    let bytes = bundle(3, &code, &[row(&[TOP], &[]), row(&[TOP], &[])]);
    let (_, mut state) = fresh(&bytes);
    state.objects = 3;
    state.classes[..3].copy_from_slice(&[EXCEPTION, 0, EXCEPTION]);
    state.threads[0].stack[..stack.len()].copy_from_slice(stack);
    state.threads[0].depth = stack.len() as u8;
    (bytes, state)
}

/// Reading 23: 11, 13, 15, in this order.
#[test]
fn the_faults_of_athrow() {
    let answer = |handler: Option<Addr>, stack: &[Value], held: u16| {
        let (bytes, mut state) = at_athrow(handler, stack);
        (state.counts[1], state.held[0]) = (held, u32::from(held > 0) << 1);
        let (answer, after) = run(&bytes, &state, false);
        assert!(answer <= 2 || after == state);
        answer
    };
    let (object_0, wrong, right) = (Value::Ref(0), Value::Ref(1), Value::Ref(2));
    for handler in [None, Some(Addr(2))] {
        let goes = if handler.is_some() { 0 } else { 2 };
        assert_eq!(answer(handler, &[], 1), 11);
        assert_eq!(answer(handler, &[Value::Int(0)], 1), 13);
        assert_eq!(answer(handler, &[wrong], 1), 13);
        assert_eq!(answer(handler, &[right, wrong], 0), 13);
        assert_eq!(answer(handler, &[wrong, right], 0), goes);
        assert_eq!(answer(handler, &[object_0], 0), goes);
    }
    assert_eq!(answer(None, &[right], 1), 15);
    assert_eq!(answer(Some(Addr(2)), &[right], 1), 0);
}

#[test]
fn a_handler_finds_what_athrow_threw_alone() {
    let stack = [Value::Int(7), Value::Ref(1), Value::Ref(2)];
    let (bytes, mut state) = at_athrow(Some(Addr(2)), &stack);
    state.threads[0].variables[0] = Value::Int(5);
    // "new fails" plays no part, and a full stack needs no room.
    for fails in [false, true] {
        let (answer, after) = run(&bytes, &state, fails);
        let thread = &after.threads[0];
        assert_eq!((answer, thread.address, thread.depth), (0, 2, 1));
        assert_eq!(thread.stack[..3], [Value::Ref(2), Value::ZERO, Value::ZERO]);
        assert_eq!(thread.variables, state.threads[0].variables);
        assert_eq!((after.objects, after.counts), (3, state.counts));
    }
    let (bytes, state) = at_athrow(None, &stack);
    let (answer, after) = run(&bytes, &state, false);
    assert_eq!((answer, after.threads), (2, State::EMPTY.threads));
}

/// Main stands at a new with this stack limit and this stack.
fn at_new(stack_limit: usize, handler: Option<Addr>, stack: &[Value]) -> (Vec<u8>, State) {
    let code = [Instr::New(0, handler), Instr::Return];
    let bytes = bundle(stack_limit, &code, &[Row::default(), Row::default()]);
    let (_, mut state) = fresh(&bytes);
    state.threads[0].stack[..stack.len()].copy_from_slice(stack);
    state.threads[0].depth = stack.len() as u8;
    (bytes, state)
}

#[test]
fn a_handler_finds_object_0_after_a_failed_new() {
    let full = [Value::Int(7), Value::Int(8)];
    let (bytes, mut state) = at_new(2, Some(Addr(2)), &full);
    assert_eq!(run(&bytes, &state, false).0, 12);
    let (answer, after) = run(&bytes, &state, true);
    let thread = &after.threads[0];
    assert_eq!((answer, thread.address, thread.depth), (0, 2, 1));
    assert_eq!(thread.stack[..2], [Value::Ref(0), Value::ZERO]);
    assert_eq!(after.objects, 1);
    // At 32 objects it fails though the step doesn't say so.
    state.objects = 32;
    assert_eq!(
        run(&bytes, &state, false).1.threads[0].stack[0],
        Value::Ref(0)
    );
    state.objects = 31;
    assert_eq!(run(&bytes, &state, false).0, 12);
}

/// Reading 20: 12 where K is 0 and a handler is entered, and only there.
#[test]
fn a_failed_new_without_room() {
    let answer = |stack_limit: usize, handler: Option<Addr>, fails: bool| {
        let (bytes, state) = at_new(stack_limit, handler, &[]);
        run(&bytes, &state, fails).0
    };
    assert_eq!(answer(0, Some(Addr(2)), true), 12);
    assert_eq!(answer(0, Some(Addr(2)), false), 12);
    assert_eq!(answer(0, None, true), 2);
    assert_eq!(answer(0, None, false), 12);
    assert_eq!(answer(1, Some(Addr(2)), true), 0);
    assert_eq!(answer(1, Some(Addr(2)), false), 0);
    // Without handler it still is 15 for a holder.
    let (bytes, mut state) = at_new(0, None, &[]);
    (state.counts[0], state.held[0]) = (1, 1);
    assert_eq!(run(&bytes, &state, true).0, 15);
    // athrow there finds the stack too short first.
    let code = [Instr::Athrow(Some(Addr(2))), Instr::Return];
    let bytes = bundle(0, &code, &[Row::default(), Row::default()]);
    assert_eq!(run(&bytes, &fresh(&bytes).1, false).0, 11);
}

/// The lock goes with what is thrown: its handler gives it back.
#[test]
fn a_lock_may_be_thrown() {
    let (free, held) = (thrown(0, 0), thrown(1, -1));
    let code = [
        Instr::New(EXCEPTION, None),
        Instr::Store(V),
        Instr::Enter(V, None),
        Instr::Load(V),
        Instr::Athrow(Some(Addr(6))),
        Instr::Store(V),
        Instr::Exit(V),
        Instr::Return,
    ];
    let rows = |caught: Entry| {
        vec![
            row(&[TOP], &[]),
            row(&[TOP], &[free]),
            row(&[free], &[]),
            row(&[held], &[]),
            row(&[free], &[held]),
            row(&[free], &[caught]),
            row(&[caught], &[]),
            row(&[free], &[]),
        ]
    };
    let bytes = bundle(1, &code, &rows(held));
    assert_eq!(judge(&bytes), Verdict::new(0, 2, 0));
    let (answers, state) = run_through(&bytes, 8);
    assert_eq!(answers, [0, 0, 0, 0, 0, 0, 0, 1]);
    assert_eq!(state.counts, [0; 256]);
    // A handler that claims more than is thrown is refused at the throw.
    let claims = bundle(1, &code, &rows(thrown(2, -1)));
    assert_eq!(judge(&claims), Verdict::new(9, 0, 5).because(2));
}
