//! Cases A to L of document 01.

mod common;

use common::{judge, run, run_through};
use generator::builder::{case_a, lay_out, Layout, Method, Row};
use reference::bundle::{find_record, Addr, Bundle, Instr, Var, Verdict};
use reference::entries::Entry;
use reference::machine::{fresh, step, State, Value};
use reference::rules;
use reference::slips::AsWritten;

const HELD: Entry = Entry::reference(0, 1, -1);
const FREE: Entry = Entry::fresh(0);

/// Case A with `if target`, and row 9's variable as given.
fn case(target: u16, last: Entry) -> Vec<u8> {
    let mut method = case_a();
    method.code[4] = Instr::If(Addr(target));
    method.rows[8].variables[0] = last;
    lay_out(&[method])
}

/// One instruction between two rows, then `return`.
fn rule_holds(instr: Instr, row: Row, next: Row) -> bool {
    let (variables, stack_limit) = (row.variables.len(), 2);
    let code = vec![instr, Instr::Return];
    let method = Method {
        variables,
        stack_limit,
        code,
        rows: vec![row, next],
        ..Method::default()
    };
    let bytes = lay_out(&[method]);
    let bundle = Bundle::open_with_code(&bytes).expect("the table is kept");
    rules::check::<AsWritten>(&bundle, bundle.class(0), Addr(1)).is_ok()
}

#[test]
fn a_is_accepted_and_laid_out_as_told() {
    let bytes = case(8, FREE);
    assert_eq!(bytes.len(), 133);
    assert_eq!(bytes[125..], [0, 117, 1, 0, 0, 133, 0x4C, 0x4B]);
    assert_eq!(find_record(&bytes, 0), &bytes[..117]);
    assert!(find_record(&bytes, 1).is_empty());
    assert_eq!(judge(&bytes), Verdict::new(0, 1, 0));
}

/// B: (1,-1) goes to (0,0), whose end is too much. C: monitorexit leaves
/// (0,0) where (1,-1) is wanted.
#[test]
fn b_and_c_are_refused_at_5_and_8() {
    assert_eq!(judge(&case(9, FREE)), Verdict::new(9, 0, 5).because(3));
    assert_eq!(judge(&case(9, HELD)), Verdict::new(9, 0, 8).because(2));
}

#[test]
fn the_program_s_line() {
    let line = |bytes: &[u8]| judge(bytes).to_string();
    assert_eq!(line(&case(8, FREE)), "accepted classes 1");
    assert_eq!(line(&case(9, FREE)), "refused 9 class 0 address 5 why 3");
    assert_eq!(line(&case(9, HELD)), "refused 9 class 0 address 8 why 2");
    assert_eq!(line(&[]), "refused 1 class 0 address 0");
}

#[test]
fn d_and_e_load_splits_the_pair() {
    let load = |kept, given| {
        rule_holds(
            Instr::Load(Var(0)),
            Row::new(&[HELD], &[]),
            Row::new(&[kept], &[given]),
        )
    };
    assert!(load(FREE, HELD));
    assert!(load(HELD, FREE));
    assert!(load(Entry::Top, HELD));
    assert!(!load(HELD, HELD));
    assert!(!load(FREE, FREE));
}

#[test]
fn f_store_over_a_held_reference_fails() {
    let store = |old| {
        let row = Row::new(&[old], &[Entry::Int]);
        rule_holds(Instr::Store(Var(0)), row, Row::new(&[Entry::Int], &[]))
    };
    assert!(!store(HELD));
    assert!(store(FREE));
}

#[test]
fn g_and_h_enter_and_exit() {
    let lock = |instr, old, new| rule_holds(instr, Row::new(&[old], &[]), Row::new(&[new], &[]));
    assert!(lock(
        Instr::Enter(Var(0), None),
        HELD,
        Entry::reference(0, 2, -2)
    ));
    assert!(!lock(
        Instr::Enter(Var(0), None),
        HELD,
        Entry::reference(0, 3, -2)
    ));
    assert!(!lock(
        Instr::Enter(Var(0), None),
        HELD,
        Entry::reference(0, 2, -1)
    ));
    assert!(!lock(Instr::Exit(Var(0)), FREE, FREE));
    assert!(!lock(Instr::Exit(Var(0)), FREE, Entry::reference(0, 0, 1)));
    assert!(lock(Instr::Exit(Var(0)), HELD, FREE));
}

#[test]
fn lock_rules_weigh_top_as_nothing() {
    let lock = |instr, old, new| rule_holds(instr, Row::new(&[old], &[]), Row::new(&[new], &[]));
    assert!(lock(Instr::Exit(Var(0)), HELD, Entry::Top));
    assert!(!lock(
        Instr::Exit(Var(0)),
        Entry::reference(0, 2, -2),
        Entry::Top
    ));
    assert!(lock(
        Instr::Enter(Var(0), None),
        Entry::reference(0, 0, 1),
        Entry::Top
    ));
    assert!(!lock(Instr::Enter(Var(0), None), FREE, Entry::Top));
    assert!(!lock(Instr::Enter(Var(0), None), Entry::Int, Entry::Top));
}

#[test]
fn i_dip_63_is_well_formed_and_64_is_not() {
    let with_dip = |dip| {
        let rows = vec![Row::new(&[Entry::reference(0, dip, 0)], &[])];
        let code = vec![Instr::Return];
        judge(&lay_out(&[Method {
            variables: 1,
            code,
            rows,
            ..Method::default()
        }]))
    };
    // Well formed, though no row 1.
    assert_eq!(with_dip(63), Verdict::new(10, 0, 0));
    assert_eq!(with_dip(64), Verdict::new(8, 0, 1));
}

#[test]
fn j_inc_wraps() {
    let mut method = case_a();
    method.code[0] = Instr::Inc;
    let bytes = lay_out(&[method]);
    let (_, mut state) = fresh(&bytes);
    state.threads[0].depth = 1;
    state.threads[0].stack[0] = Value::Int(i32::MAX);
    let (answer, after) = run(&bytes, &state, false);
    assert_eq!(
        (answer, after.threads[0].stack[0]),
        (0, Value::Int(i32::MIN))
    );
}

/// new 0; pop; and back to 1 by an if: makes objects until one fails.
fn endless_new() -> Vec<u8> {
    let code = vec![
        Instr::New(0, None),
        Instr::Pop,
        Instr::Push0,
        Instr::Inc,
        Instr::If(Addr(1)),
        Instr::Return,
    ];
    let stacks: [&[Entry]; 6] = [&[], &[FREE], &[], &[Entry::Int], &[Entry::Int], &[]];
    lay_out(&[Method {
        stack_limit: 1,
        code,
        rows: stacks.map(|stack| Row::new(&[], stack)).to_vec(),
        ..Method::default()
    }])
}

/// Object 0 is there already, so 31 are left for new.
#[test]
fn k_the_32nd_new_fails() {
    let bytes = endless_new();
    assert_eq!(judge(&bytes), Verdict::new(0, 1, 0));
    let (_, mut state) = fresh(&bytes);
    for made in 1..=31 {
        for _ in 0..5 {
            let (answer, next) = run(&bytes, &state, false);
            assert_eq!(answer, 0);
            state = next;
        }
        assert_eq!(state.objects, 1 + made);
    }
    let (answer, after) = run(&bytes, &state, false);
    assert_eq!(
        (answer, after.objects, after.threads[0].live),
        (2, 32, false)
    );
}

#[test]
fn l_empty_input_draws_1() {
    assert_eq!(judge(&[]), Verdict::new(1, 0, 0));
    assert_eq!(fresh(&[]), (17, State::EMPTY));
    assert_eq!(run(&[], &State::EMPTY, false), (17, State::EMPTY));
}

#[test]
fn a_runs_down_both_arms() {
    let bytes = case(8, FREE);
    let (answers, state) = run_through(&bytes, 8);
    assert_eq!(answers, [0, 0, 0, 0, 0, 0, 1, 5]);
    assert_eq!((state.objects, state.counts), (2, [0; 256]));
    assert_eq!(state.threads, State::EMPTY.threads);
}

#[test]
fn b_draws_15_when_the_branch_is_taken() {
    let mut method = case_a();
    method.code[4] = Instr::If(Addr(9));
    let bytes = lay_out(&[method]);
    let (_, mut state) = fresh(&bytes);
    for _ in 0..4 {
        state = run(&bytes, &state, false).1;
    }
    state.threads[0].stack[0] = Value::Int(-1);
    state = run(&bytes, &state, false).1;
    assert_eq!(state.threads[0].address, 9);
    assert_eq!(run(&bytes, &state, false), (15, state));
}

#[test]
fn records_may_share_bytes() {
    let method = Method {
        code: vec![Instr::Return],
        rows: vec![Row::default()],
        ..Method::default()
    };
    let mut layout = Layout::new();
    let at = layout.place(&method);
    (1..8).for_each(|_| layout.enter(&method, at));
    assert_eq!(judge(&layout.finish()), Verdict::new(0, 8, 0));
    // The row's depth byte is also the first byte of the directory.
    let mut layout = Layout::new();
    layout.place(&method);
    assert_eq!(
        judge(&layout.finish_with_directory_at(4)),
        Verdict::new(0, 1, 0)
    );
}

#[test]
fn the_order_of_answers() {
    let bytes = case(8, FREE);
    let (_, mut state) = fresh(&bytes);
    for thread in [1, 7, 8, 9, 16, 128, 255] {
        assert_eq!(step(&bytes, &mut state, thread, false), 5);
    }
    assert_eq!(state, fresh(&bytes).1);
    let mut bad = state.clone();
    bad.threads[0].address = 10;
    for thread in [0, 9, 255] {
        assert_eq!(step(&bytes, &mut bad, thread, false), 18);
    }
    // A failed new needs no room.
    let mut full = state.clone();
    full.threads[0].depth = 1;
    assert_eq!(run(&bytes, &full, false).0, 12);
    assert_eq!(run(&bytes, &full, true).0, 2);
}
