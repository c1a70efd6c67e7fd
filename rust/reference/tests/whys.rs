//! Why a rule fails: every sentence of the request, from both sides.

use generator::builder::{lay_out, Method, Row};
use reference::bundle::{Addr, Instr, Var, Verdict, INT};
use reference::entries::Entry;
use reference::verify::verify;

const INTEGER: Entry = Entry::Int;
const TOP: Entry = Entry::Top;
/// Where `if` and handlers go in these methods.
const OTHER: Addr = Addr(4);
const V: Var = Var(0);

/// A reference of class 0.
const fn zero(dip: i16, end: i16) -> Entry {
    Entry::reference(0, dip, end)
}

/// A reference of class 1, whose method takes an integer and a class 0.
const fn one(dip: i16, end: i16) -> Entry {
    Entry::reference(1, dip, end)
}

fn row(variables: &[Entry], stack: &[Entry]) -> Row {
    Row::new(variables, stack)
}

/// A method of class 0: address 1 ends the thread, so that row 2 may say
/// anything; row 3 is the next one, row 4 a target's or a handler's.
fn bundle(instr: Instr, rows: [Row; 3]) -> Vec<u8> {
    let variables = rows[0].variables.len();
    let mut all = vec![row(&vec![TOP; variables], &[])];
    all.extend(rows);
    let main = Method {
        variables,
        stack_limit: 4,
        code: vec![Instr::Return, instr, Instr::Return, Instr::Return],
        rows: all,
        ..Method::default()
    };
    let started = Method {
        arguments: vec![INT, 0],
        variables: 2,
        code: vec![Instr::Return],
        rows: vec![row(&[INTEGER, zero(0, 0)], &[])],
        ..Method::default()
    };
    lay_out(&[main, started])
}

/// Why the rule fails, if it does.
fn why_to(instr: Instr, own: Row, next: Row, other: Row) -> Option<u8> {
    let verdict = verify(&bundle(instr, [own, next, other]));
    let found = (verdict.number, verdict.class, verdict.address) == (9, 0, 2);
    found.then_some(verdict.why)
}

/// The same of an instruction that goes to the next address alone.
fn why(instr: Instr, own: Row, next: Row) -> Option<u8> {
    let other = row(&vec![TOP; own.variables.len()], &[]);
    why_to(instr, own, next, other)
}

/// How one entry compares with another, as a variable that pop leaves alone.
fn compared(entry: Entry, next: Entry) -> Option<u8> {
    why(Instr::Pop, row(&[entry], &[INTEGER]), row(&[next], &[]))
}

#[test]
fn two_entries_compared() {
    assert_eq!(compared(INTEGER, INTEGER), None);
    assert_eq!(compared(INTEGER, TOP), None);
    assert_eq!(compared(TOP, TOP), None);
    assert_eq!(compared(INTEGER, zero(0, 0)), Some(1));
    assert_eq!(compared(TOP, INTEGER), Some(1));
    assert_eq!(compared(TOP, zero(0, 0)), Some(1));
    assert_eq!(compared(zero(0, 0), INTEGER), Some(1));
    assert_eq!(compared(zero(2, 1), zero(2, 1)), None);
    assert_eq!(compared(zero(2, 1), zero(1, 0)), None);
    assert_eq!(compared(zero(2, 1), one(0, 0)), Some(1));
    assert_eq!(compared(zero(2, 1), one(3, 2)), Some(1));
    assert_eq!(compared(zero(2, 1), zero(3, 2)), Some(2));
    assert_eq!(compared(zero(2, 1), zero(3, 1)), Some(2));
    assert_eq!(compared(zero(2, 1), zero(2, 2)), Some(3));
    assert_eq!(compared(zero(0, 0), TOP), None);
    assert_eq!(compared(zero(0, -1), TOP), Some(3));
    assert_eq!(compared(zero(5, -1), TOP), Some(3));
}

#[test]
fn the_first_entry_that_fails_is_told() {
    let pop = |next: Row| {
        let own = row(&[zero(0, 0), zero(0, 0)], &[INTEGER, zero(0, 0), INTEGER]);
        why(Instr::Pop, own, next)
    };
    let rest = [zero(0, 0), INTEGER];
    assert_eq!(pop(row(&[zero(0, 1), INTEGER], &rest)), Some(3));
    assert_eq!(pop(row(&[INTEGER, zero(0, 1)], &rest)), Some(1));
    assert_eq!(pop(row(&[TOP, zero(1, 0)], &rest)), Some(2));
    // Variables come before the stack, and the stack goes from the top.
    let owed = [zero(1, 0), zero(0, 0)];
    assert_eq!(pop(row(&[TOP, zero(0, 1)], &owed)), Some(3));
    assert_eq!(pop(row(&[TOP, TOP], &owed)), Some(2));
    assert_eq!(pop(row(&[TOP, TOP], &[TOP, zero(0, 0)])), Some(1));
    assert_eq!(pop(row(&[TOP, TOP], &rest)), None);
}

#[test]
fn row_l_plus_1_comes_before_the_target_s() {
    let branch = |next: Row, target: Row| {
        let own = row(&[zero(0, 0)], &[INTEGER, zero(0, 0)]);
        why_to(Instr::If(OTHER), own, next, target)
    };
    let fine = || row(&[TOP], &[TOP]);
    let misfit = || row(&[INTEGER], &[TOP]);
    assert_eq!(branch(fine(), fine()), None);
    assert_eq!(branch(row(&[zero(0, 1)], &[TOP]), misfit()), Some(3));
    assert_eq!(branch(row(&[TOP], &[zero(1, 0)]), misfit()), Some(2));
    assert_eq!(branch(misfit(), row(&[zero(1, 0)], &[TOP])), Some(1));
    assert_eq!(branch(fine(), row(&[zero(1, 0)], &[INTEGER])), Some(2));
    assert_eq!(branch(fine(), row(&[TOP], &[zero(0, 1)])), Some(3));
}

/// Reading 1: a depth, a kind named in row l or a "may go" is told before
/// any misfit, wherever that stands.
#[test]
fn what_is_asked_comes_before_what_is_compared() {
    let misfit = row(&[INTEGER], &[]);
    let pop = |top: Entry, next: &Row| why(Instr::Pop, row(&[TOP], &[top]), next.clone());
    assert_eq!(pop(zero(0, 0), &misfit), Some(1));
    assert_eq!(pop(zero(0, -1), &misfit), Some(0));
    assert_eq!(pop(zero(0, -1), &row(&[TOP], &[])), Some(0));
    assert_eq!(pop(zero(0, 0), &row(&[INTEGER], &[TOP])), Some(0));
    assert_eq!(why(Instr::Pop, row(&[TOP], &[]), misfit), Some(0));

    let inc = |top: Entry| why(Instr::Inc, row(&[TOP], &[top]), row(&[INTEGER], &[TOP]));
    assert_eq!(inc(INTEGER), Some(1));
    assert_eq!(inc(TOP), Some(0));
    let store = |old: Entry| {
        let own = row(&[old], &[zero(0, 0)]);
        why(Instr::Store(V), own, row(&[zero(0, 1)], &[]))
    };
    assert_eq!(store(zero(0, 0)), Some(3));
    assert_eq!(store(zero(3, -1)), Some(0));
}

/// Reading 1 of the rows that a target or a handler has.
#[test]
fn another_row_s_depth_comes_before_what_is_compared() {
    let branch = |top: Entry, target: Row| {
        let own = row(&[zero(0, 0)], &[top]);
        why_to(Instr::If(OTHER), own, row(&[zero(0, 1)], &[]), target)
    };
    assert_eq!(branch(INTEGER, row(&[TOP], &[])), Some(3));
    assert_eq!(branch(INTEGER, row(&[TOP], &[TOP])), Some(0));
    assert_eq!(branch(TOP, row(&[TOP], &[])), Some(0));

    let new = |handler: Option<Addr>, variable: Entry, at: Row| {
        let own = row(&[variable], &[]);
        let next = row(&[variable], &[zero(1, 0)]);
        why_to(Instr::New(0, handler), own, next, at)
    };
    assert_eq!(new(Some(OTHER), TOP, row(&[TOP], &[TOP])), Some(2));
    assert_eq!(new(Some(OTHER), TOP, row(&[TOP], &[])), Some(0));
    assert_eq!(new(None, zero(0, 0), row(&[TOP], &[])), Some(2));
    assert_eq!(new(None, zero(0, -1), row(&[TOP], &[])), Some(0));
    let athrow = |stack: &[Entry], at: Row| {
        let own = row(&[TOP], stack);
        why_to(Instr::Athrow(Some(OTHER)), own, row(&[TOP], &[]), at)
    };
    let thrown = zero(0, 0);
    assert_eq!(athrow(&[thrown], row(&[INTEGER], &[TOP])), Some(1));
    assert_eq!(athrow(&[thrown], row(&[INTEGER], &[])), Some(0));
    assert_eq!(
        athrow(&[thrown, zero(0, -1)], row(&[INTEGER], &[TOP])),
        Some(0)
    );
}

#[test]
fn return_only_asks() {
    let ends = |variable: Entry, top: Entry| {
        let any = row(&[INTEGER], &[]);
        why(Instr::Return, row(&[variable], &[top]), any)
    };
    assert_eq!(ends(zero(0, 0), one(2, 1)), None);
    assert_eq!(ends(zero(2, -1), TOP), Some(0));
    assert_eq!(ends(TOP, one(2, -1)), Some(0));
}

/// Reading 2: there is no second entry to compare with.
#[test]
fn what_start_takes_is_asked() {
    let start = |stack: &[Entry], next: Entry| {
        let own = row(&[zero(0, 0)], stack);
        why(Instr::Start(1), own, row(&[next], &[]))
    };
    let (integer, argument, object) = (INTEGER, zero(1, 0), one(0, 2));
    assert_eq!(start(&[integer, argument, object], TOP), None);
    assert_eq!(start(&[integer, argument, object], one(0, 0)), Some(1));
    assert_eq!(start(&[integer, argument, object], zero(1, 0)), Some(2));
    assert_eq!(start(&[TOP, argument, object], TOP), Some(0));
    assert_eq!(start(&[integer, one(0, 0), object], TOP), Some(0));
    assert_eq!(start(&[integer, argument, zero(0, 0)], TOP), Some(0));
    assert_eq!(start(&[integer, zero(1, -1), object], TOP), Some(0));
    assert_eq!(start(&[integer, argument, one(0, -1)], TOP), Some(0));
    assert_eq!(start(&[integer, argument], one(0, 0)), Some(0));
}

/// Reading 3: Int against them, behind the variables.
#[test]
fn the_new_tops_of_inc_and_push0() {
    let inc = |variable: Entry, top: Entry| {
        let own = row(&[zero(0, 0)], &[INTEGER, INTEGER]);
        why(Instr::Inc, own, row(&[variable], &[top, TOP]))
    };
    let push0 = |variable: Entry, top: Entry| {
        let own = row(&[zero(0, 0)], &[INTEGER]);
        why(Instr::Push0, own, row(&[variable], &[top, TOP]))
    };
    for pushes in [&inc as &dyn Fn(Entry, Entry) -> Option<u8>, &push0] {
        assert_eq!(pushes(TOP, INTEGER), None);
        assert_eq!(pushes(TOP, TOP), None);
        assert_eq!(pushes(TOP, zero(0, 0)), Some(1));
        assert_eq!(pushes(zero(0, 1), zero(0, 0)), Some(3));
    }
    // The top comes before what lies below it.
    let own = row(&[], &[INTEGER, zero(0, 0)]);
    let next = row(&[], &[zero(0, 0), zero(0, 1)]);
    assert_eq!(why(Instr::Inc, own, next), Some(1));
}

/// Reading 4: both places at once, at v.
#[test]
fn load_of_a_reference_compares_once() {
    let load = |kept: Entry, given: Entry| {
        let own = row(&[zero(2, -1)], &[]);
        why(Instr::Load(V), own, row(&[kept], &[given]))
    };
    assert_eq!(load(zero(1, -1), zero(1, 0)), None);
    assert_eq!(load(TOP, zero(2, -1)), None);
    assert_eq!(load(INTEGER, zero(0, 0)), Some(1));
    assert_eq!(load(zero(0, 0), INTEGER), Some(1));
    assert_eq!(load(one(0, 0), TOP), Some(1));
    assert_eq!(load(zero(3, 3), one(0, 0)), Some(1));
    assert_eq!(load(zero(1, -1), zero(2, 0)), Some(2));
    assert_eq!(load(zero(2, 0), zero(1, 0)), Some(2));
    assert_eq!(load(zero(1, 0), zero(1, 0)), Some(3));
    assert_eq!(load(TOP, TOP), Some(3));
}

/// Reading 4: v keeps its place among the variables, and the new top isn't
/// compared again.
#[test]
fn load_of_a_reference_compares_in_the_variables_order() {
    let load = |first: Entry, kept: Entry, last: Entry, given: Entry| {
        let own = row(&[zero(0, 0), zero(0, 0), zero(0, 0)], &[]);
        let next = row(&[first, kept, last], &[given]);
        why(Instr::Load(Var(1)), own, next)
    };
    assert_eq!(load(TOP, TOP, TOP, zero(0, 0)), None);
    assert_eq!(load(zero(0, 1), TOP, TOP, INTEGER), Some(3));
    assert_eq!(load(TOP, TOP, zero(0, 1), INTEGER), Some(1));
    assert_eq!(load(TOP, zero(0, 1), INTEGER, TOP), Some(3));
    assert_eq!(load(TOP, zero(0, 1), INTEGER, zero(0, -1)), Some(1));
}

/// Reading 4: Int and Top are compared at v and at the new top.
#[test]
fn load_of_another_entry_compares_twice() {
    let load = |entry: Entry, kept: Entry, last: Entry, given: Entry| {
        let own = row(&[entry, zero(0, 0)], &[]);
        why(Instr::Load(V), own, row(&[kept, last], &[given]))
    };
    assert_eq!(load(INTEGER, INTEGER, TOP, TOP), None);
    assert_eq!(load(TOP, TOP, TOP, TOP), None);
    assert_eq!(load(INTEGER, zero(0, 0), zero(1, 0), INTEGER), Some(1));
    assert_eq!(load(INTEGER, TOP, TOP, zero(0, 0)), Some(1));
    assert_eq!(load(TOP, TOP, TOP, INTEGER), Some(1));
    assert_eq!(load(INTEGER, INTEGER, zero(1, 0), zero(0, 0)), Some(2));
}

/// Reading 5: the moved pair, Top weighing (0,0).
#[test]
fn the_lock_instructions_compare_the_moved_pair() {
    let lock = |instr: Instr, entry: Entry, next: Entry| {
        let last = zero(0, 0);
        why(instr, row(&[entry, last], &[]), row(&[next, last], &[]))
    };
    let (enter, exit) = (Instr::Enter(V, None), Instr::Exit(V));
    assert_eq!(lock(enter, zero(1, -1), zero(2, -2)), None);
    assert_eq!(lock(enter, zero(1, -1), INTEGER), Some(1));
    assert_eq!(lock(enter, zero(1, -1), one(2, -2)), Some(1));
    assert_eq!(lock(enter, zero(1, -1), zero(3, -2)), Some(2));
    assert_eq!(lock(enter, zero(1, -1), zero(3, -1)), Some(2));
    assert_eq!(lock(enter, zero(1, -1), zero(2, -1)), Some(3));
    assert_eq!(lock(enter, zero(0, 1), TOP), None);
    assert_eq!(lock(enter, zero(0, 0), TOP), Some(3));
    assert_eq!(lock(enter, INTEGER, TOP), Some(0));
    assert_eq!(lock(exit, zero(2, -2), zero(1, -1)), None);
    assert_eq!(lock(exit, zero(1, -1), TOP), None);
    assert_eq!(lock(exit, zero(1, -2), TOP), Some(3));
    // Nowhere else does a comparison with Top give 2.
    assert_eq!(lock(exit, zero(0, 0), TOP), Some(2));
    assert_eq!(lock(exit, zero(0, -2), TOP), Some(2));
    assert_eq!(lock(exit, zero(2, -2), zero(1, 0)), Some(3));
    assert_eq!(lock(exit, zero(2, -2), INTEGER), Some(1));
    assert_eq!(lock(exit, TOP, zero(0, 0)), Some(0));
}

#[test]
fn store_and_the_lock_instructions_keep_the_variables_order() {
    let own = || row(&[zero(0, 0), zero(1, -1), zero(0, 0)], &[]);
    let next = |first: Entry, v: Entry, last: Entry| row(&[first, v, last], &[]);
    let exit = |next: Row| why(Instr::Exit(Var(1)), own(), next);
    assert_eq!(exit(next(zero(0, 1), INTEGER, INTEGER)), Some(3));
    assert_eq!(exit(next(TOP, zero(1, 0), INTEGER)), Some(2));
    assert_eq!(exit(next(TOP, TOP, INTEGER)), Some(1));
    let store = |next: Row| {
        let own = row(&[zero(0, 0), TOP, zero(0, 0)], &[INTEGER]);
        why(Instr::Store(Var(1)), own, next)
    };
    assert_eq!(store(next(zero(1, 0), zero(0, 0), TOP)), Some(2));
    assert_eq!(store(next(TOP, zero(0, 0), zero(0, 1))), Some(1));
    assert_eq!(store(next(TOP, INTEGER, zero(0, 1))), Some(3));
}

/// Reading 6: an ordinary comparison at the new top, and all of row l+1
/// before any of the handler's.
#[test]
fn new_compares_its_object_at_the_new_top() {
    let new = |next: Row, at: Row| {
        let own = row(&[zero(0, 0)], &[INTEGER]);
        why_to(Instr::New(0, Some(OTHER)), own, next, at)
    };
    let next = |top: Entry| row(&[zero(0, 0)], &[top, INTEGER]);
    let fine = || row(&[TOP], &[TOP]);
    let misfit = || row(&[INTEGER], &[TOP]);
    assert_eq!(new(next(zero(0, 0)), fine()), None);
    assert_eq!(new(next(TOP), fine()), None);
    assert_eq!(new(next(one(0, 0)), fine()), Some(1));
    assert_eq!(new(next(zero(1, 0)), misfit()), Some(2));
    assert_eq!(new(next(zero(0, 1)), misfit()), Some(3));
    assert_eq!(new(next(TOP), misfit()), Some(1));
    let below = row(&[TOP], &[TOP, zero(0, 0)]);
    assert_eq!(new(below, row(&[zero(0, 1)], &[TOP])), Some(1));
    let before = row(&[zero(0, 1)], &[one(0, 0), TOP]);
    assert_eq!(new(before, fine()), Some(3));
}

/// Reading 7: no other verdict has a fourth number.
#[test]
fn only_verdict_9_has_a_reason() {
    let rows = [row(&[TOP], &[]), row(&[TOP], &[]), row(&[TOP], &[])];
    let good = bundle(Instr::Push0, rows.clone());
    assert_eq!(verify(&good), Verdict::new(9, 0, 2).because(0));
    let method = Method {
        variables: 1,
        code: vec![Instr::Return],
        rows: vec![row(&[zero(0, 0)], &[])],
        ..Method::default()
    };
    let verdict = verify(&lay_out(&[method]));
    assert_eq!(verdict, Verdict::new(10, 0, 0));
    assert_eq!(verdict.to_string(), "refused 10 class 0 address 0");
    let mut broken = good.clone();
    broken[0] = 13;
    assert_eq!(verify(&broken), Verdict::new(7, 0, 1));
    assert_eq!(verify(&good[1..]), Verdict::new(2, 0, 0));
}
