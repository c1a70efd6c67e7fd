//! A lock order by class: every sentence of the request and of its readings,
//! from both sides.

use generator::builder::{case_a, lay_out, Draft, Method, Row};
use generator::families;
use generator::two_locks::two_locks;
use reference::bundle::{Addr, Bundle, Instr, Var, Verdict};
use reference::entries::Entry;
use reference::machine::{fresh, step};
use reference::verify::{verify, verify_ordered};

const TOP: Entry = Entry::Top;
const INTEGER: Entry = Entry::Int;
const FALLING: [u8; 8] = [7, 6, 5, 4, 3, 2, 1, 0];
const RISING: [u8; 8] = [0, 1, 2, 3, 4, 5, 6, 7];
const EQUAL: [u8; 8] = [4; 8];

const fn free(class: u8) -> Entry {
    Entry::fresh(class)
}

const fn held(class: u8) -> Entry {
    Entry::reference(class, 1, -1)
}

const fn doubted(class: u8) -> Entry {
    Entry::Nullable { class }
}

/// This method's class, and two that end at once.
fn classes(main: Method) -> Draft {
    let other = Method {
        code: vec![Instr::Return],
        rows: vec![Row::default()],
        ..Method::default()
    };
    Draft {
        methods: vec![main, other.clone(), other],
        exception: 0,
    }
}

/// A method whose address 2 does this in a row of these entries, and is left
/// with those variables. Address 1 ends the thread, so that row 2 may claim
/// anything. What is on the stack is stored away; then the method throws for
/// ever, so that nothing need be given back.
fn method(instr: Instr, before: &[Entry], after: &[Entry], stack: &[Entry]) -> Method {
    let spare = vec![TOP; stack.len()];
    let wide = |variables: &[Entry]| [variables, &spare].concat();
    let mut code = vec![Instr::Return, instr];
    let mut rows = vec![
        Row::new(&wide(&vec![TOP; before.len()]), &[]),
        Row::new(&wide(before), stack),
    ];
    let mut now = wide(after);
    for (i, &top) in stack.iter().enumerate() {
        let v = before.len() + i;
        code.push(Instr::Store(Var(v as u8)));
        rows.push(Row::new(&now, &stack[i..]));
        now[v] = top;
    }
    let throw = Addr(code.len() as u16 + 2);
    code.extend([Instr::New(0, Some(throw)), Instr::Athrow(Some(throw))]);
    rows.extend([Row::new(&now, &[]), Row::new(&now, &[free(0)])]);
    Method {
        variables: now.len(),
        stack_limit: stack.len().max(1),
        code,
        rows,
        ..Method::default()
    }
}

/// A method that takes the lock of variable `v` at address 2.
fn entering(v: usize, variables: &[Entry], stack: &[Entry]) -> Method {
    let mut after = variables.to_vec();
    if let Entry::Ref { pair, .. } = &mut after[v] {
        *pair = pair.entered();
    }
    method(Instr::Enter(Var(v as u8), None), variables, &after, stack)
}

/// The verdict under these levels; without them the bundle is accepted.
fn judged(method: Method, levels: [u8; 8]) -> Verdict {
    let bundle = classes(method).lay_out();
    assert_eq!(verify(&bundle), Verdict::new(0, 3, 0));
    verify_ordered(&bundle, &levels)
}

/// Whether variable `v` may be entered in this row.
fn allowed(v: usize, variables: &[Entry], stack: &[Entry], levels: [u8; 8]) -> bool {
    let verdict = judged(entering(v, variables, stack), levels);
    let accepted = verdict == Verdict::new(0, 3, 0);
    assert!(accepted || verdict == Verdict::new(25, 0, 2), "{verdict}");
    accepted
}

/// Whether a class may be taken while another is held.
fn nests(held_class: u8, taken: u8, levels: [u8; 8]) -> bool {
    allowed(0, &[free(taken), held(held_class)], &[], levels)
}

// "must be of a strictly higher level than v's class"

#[test]
fn held_is_strictly_higher_than_taken() {
    assert!(nests(0, 1, FALLING));
    assert!(nests(1, 2, FALLING));
    assert!(!nests(1, 0, FALLING));
    assert!(!nests(0, 1, RISING));
    assert!(nests(1, 0, RISING));
    assert!(!nests(0, 1, EQUAL));
    assert!(!nests(1, 0, EQUAL));
    assert!(!nests(1, 1, RISING));
}

#[test]
fn levels_are_bytes() {
    for (held_level, taken_level) in [(1, 0), (255, 254), (255, 0), (128, 127)] {
        let levels = [held_level, taken_level, 0, 0, 0, 0, 0, 0];
        assert!(nests(0, 1, levels));
        assert!(!nests(1, 0, levels));
    }
}

#[test]
fn levels_are_the_classes_own() {
    // Neither the variable's number nor the class of the code plays a part.
    let levels = [9, 3, 5, 0, 0, 0, 0, 0];
    assert!(allowed(0, &[free(1), held(2), held(0)], &[], levels));
    assert!(allowed(2, &[held(0), held(2), free(1)], &[], levels));
    assert!(!allowed(0, &[free(2), held(1), TOP], &[], levels));
    assert!(!allowed(2, &[TOP, held(1), free(2)], &[], levels));
}

// "every other entry of the row"

#[test]
fn every_variable_but_v_is_looked_at() {
    for v in 0..3 {
        let mut variables = [INTEGER, TOP, INTEGER];
        variables[v] = free(1);
        assert!(allowed(v, &variables, &[], EQUAL));
        for w in (0..3).filter(|&w| w != v) {
            let mut variables = variables;
            variables[w] = held(0);
            assert!(!allowed(v, &variables, &[], EQUAL));
            assert!(!allowed(v, &variables, &[], RISING));
            assert!(allowed(v, &variables, &[], FALLING));
        }
    }
}

#[test]
fn the_stack_in_use_is_looked_at() {
    for place in 0..3 {
        let mut stack = [INTEGER, free(2), TOP];
        assert!(allowed(0, &[free(1)], &stack, EQUAL));
        stack[place] = held(0);
        assert!(!allowed(0, &[free(1)], &stack, EQUAL));
        assert!(allowed(0, &[free(1)], &stack, FALLING));
    }
}

#[test]
fn one_of_several_is_enough() {
    let levels = [9, 3, 1, 0, 0, 0, 0, 0];
    let beside = |before: u8, behind: u8, top: u8| {
        let variables = [held(before), free(1), held(behind)];
        allowed(1, &variables, &[held(top)], levels)
    };
    assert!(beside(0, 0, 0));
    assert!(!beside(2, 0, 0));
    assert!(!beside(0, 2, 0));
    assert!(!beside(0, 0, 2));
}

#[test]
fn v_itself_is_not() {
    for levels in [RISING, FALLING, EQUAL] {
        assert!(allowed(0, &[held(0)], &[], levels));
        let often = Entry::reference(1, 62, -62);
        assert!(allowed(1, &[TOP, often], &[], levels));
    }
    assert!(allowed(0, &[held(1), held(0)], &[], FALLING));
    assert!(!allowed(0, &[held(1), held(0)], &[], RISING));
}

/// Reading 49: an alias of the same object counts.
#[test]
fn an_alias_counts() {
    for levels in [RISING, FALLING, EQUAL] {
        assert!(!allowed(0, &[free(0), held(0)], &[], levels));
        assert!(!allowed(0, &[held(0), held(0)], &[], levels));
        assert!(!allowed(0, &[held(0)], &[held(0)], levels));
        assert!(allowed(0, &[held(0), free(0)], &[free(0)], levels));
    }
}

// "that is a reference with a negative end"

#[test]
fn the_end_tells() {
    let other = |dip, end| allowed(0, &[free(0), Entry::reference(1, dip, end)], &[], EQUAL);
    assert!(other(0, 0));
    assert!(other(63, 0));
    assert!(other(0, 1));
    assert!(other(63, 63));
    assert!(!other(0, -1));
    assert!(!other(1, -1));
    assert!(!other(63, -1));
    assert!(!other(0, -63));
}

#[test]
fn integers_and_tops_never_count() {
    let variables = [INTEGER, free(1), TOP];
    assert!(allowed(1, &variables, &[TOP, INTEGER], EQUAL));
}

/// Reading 49: kind 4 entries have no end and never count.
#[test]
fn what_may_be_null_never_counts() {
    for levels in [RISING, FALLING, EQUAL] {
        let variables = [doubted(0), free(1), doubted(1), doubted(2)];
        assert!(allowed(1, &variables, &[doubted(1), doubted(0)], levels));
    }
}

/// Reading 49: v's class is that of row l's entry, kind 3 or 4. Null is thrown
/// to a handler that throws on for ever, since a lock may be held.
#[test]
fn v_may_be_null() {
    let enter = |class, other| {
        let after = [held(class), other];
        let mut method = method(Instr::Return, &[doubted(class), other], &after, &[]);
        let handler = Addr(method.code.len() as u16 + 1);
        method.code[1] = Instr::Enter(Var(0), Some(handler));
        method.code.push(Instr::Athrow(Some(handler)));
        method
            .rows
            .push(Row::new(&[doubted(class), other], &[free(0)]));
        method
    };
    let (accepted, refused) = (Verdict::new(0, 3, 0), Verdict::new(25, 0, 2));
    assert_eq!(judged(enter(1, held(0)), FALLING), accepted);
    assert_eq!(judged(enter(1, held(0)), EQUAL), refused);
    assert_eq!(judged(enter(0, held(1)), FALLING), refused);
    assert_eq!(judged(enter(0, held(1)), RISING), accepted);
    assert_eq!(judged(enter(0, held(0)), RISING), refused);
    assert_eq!(judged(enter(0, free(1)), EQUAL), accepted);
    assert_eq!(judged(enter(0, doubted(0)), EQUAL), accepted);
}

// "At monitorenter v"

/// monitorexit, and behind it store, new and athrow, with locks held.
#[test]
fn nothing_else_is_asked() {
    let (before, after) = ([held(0), held(1)], [free(0), held(1)]);
    let exit = method(Instr::Exit(Var(0)), &before, &after, &[held(2)]);
    for levels in [RISING, FALLING, EQUAL] {
        assert_eq!(judged(exit.clone(), levels), Verdict::new(0, 3, 0));
    }
}

#[test]
fn only_row_l_is_looked_at() {
    // Row 3 owes what row 2 does not: the lock that was just taken.
    assert!(allowed(0, &[free(0), free(0)], &[free(0)], EQUAL));
}

// "26 when the list isn't eight bytes long, before all else"

#[test]
fn eight_levels_are_a_list() {
    let good = lay_out(&[case_a()]);
    for length in (0..=64).chain([255, 256, 257, 264, 65_536 + 8]) {
        let list = vec![1; length];
        for bundle in [&good[..], &good[1..], &[], &[0; 70_000]] {
            let verdict = verify_ordered(bundle, &list);
            match length {
                8 => assert_eq!(verdict, verify(bundle)),
                _ => assert_eq!(verdict, Verdict::new(26, 0, 0)),
            }
        }
    }
    let line = verify_ordered(&good, &[]).to_string();
    assert_eq!(line, "refused 26 class 0 address 0");
}

// "25 as a verdict, after 9 at the same address, naming class and address"

/// Class 0 takes class 1 while it holds class 0, at address 2; class 1 ends at
/// once.
fn nested() -> Method {
    entering(0, &[free(1), held(0)], &[])
}

#[test]
fn the_line_of_25() {
    let bundle = classes(nested()).lay_out();
    let verdict = verify_ordered(&bundle, &RISING);
    assert_eq!(verdict, Verdict::new(25, 0, 2));
    assert_eq!(verdict.to_string(), "refused 25 class 0 address 2");
    let accepted = verify_ordered(&bundle, &FALLING);
    assert_eq!(accepted.to_string(), "accepted classes 3");
}

#[test]
fn nine_comes_before_25_at_one_address() {
    let mut method = nested();
    method.rows[2].variables[0] = Entry::reference(1, 2, -1);
    method.rows[3].variables[0] = Entry::reference(1, 2, -1);
    let bundle = classes(method).lay_out();
    let told = Verdict::new(9, 0, 2).because(2);
    assert_eq!(verify(&bundle), told);
    assert_eq!(verify_ordered(&bundle, &RISING), told);
    assert_eq!(verify_ordered(&bundle, &FALLING), told);
}

#[test]
fn twenty_five_comes_before_a_later_9() {
    let mut method = nested();
    method.rows[3].variables[0] = Entry::reference(1, 1, 0);
    let bundle = classes(method).lay_out();
    let later = Verdict::new(9, 0, 3).because(3);
    assert_eq!(verify(&bundle), later);
    assert_eq!(verify_ordered(&bundle, &FALLING), later);
    assert_eq!(verify_ordered(&bundle, &RISING), Verdict::new(25, 0, 2));
}

#[test]
fn an_earlier_9_comes_before_25() {
    let mut method = nested();
    method.code[0] = Instr::Pop;
    let bundle = classes(method).lay_out();
    let earlier = Verdict::new(9, 0, 1).because(0);
    assert_eq!(verify(&bundle), earlier);
    assert_eq!(verify_ordered(&bundle, &RISING), earlier);
}

#[test]
fn its_own_class_s_10_comes_before_25_and_a_later_class_s_after() {
    let wrong = |draft: &mut Draft, class: usize| {
        draft.methods[class].variables = draft.methods[class].variables.max(1);
        for row in &mut draft.methods[class].rows {
            row.variables.resize(row.variables.len().max(1), TOP);
        }
        draft.methods[class].rows[0].variables[0] = INTEGER;
    };
    let mut own = classes(nested());
    wrong(&mut own, 0);
    let told = Verdict::new(10, 0, 0);
    assert_eq!(verify_ordered(&own.lay_out(), &RISING), told);
    let mut later = classes(nested());
    wrong(&mut later, 1);
    let bundle = later.lay_out();
    assert_eq!(verify(&bundle), Verdict::new(10, 1, 0));
    assert_eq!(verify_ordered(&bundle, &FALLING), Verdict::new(10, 1, 0));
    assert_eq!(verify_ordered(&bundle, &RISING), Verdict::new(25, 0, 2));
}

#[test]
fn twenty_five_comes_before_a_later_class_s_9() {
    let mut draft = classes(nested());
    draft.methods[1].code[0] = Instr::Athrow(None);
    let bundle = draft.lay_out();
    assert_eq!(verify(&bundle), Verdict::new(9, 1, 1));
    assert_eq!(verify_ordered(&bundle, &FALLING), Verdict::new(9, 1, 1));
    assert_eq!(verify_ordered(&bundle, &RISING), Verdict::new(25, 0, 2));
}

#[test]
fn the_first_25_is_told_and_of_the_first_class() {
    let mut draft = classes(nested());
    draft.methods.swap(0, 2);
    let bundle = draft.lay_out();
    assert_eq!(verify_ordered(&bundle, &RISING), Verdict::new(25, 2, 2));
    draft.methods[1] = nested();
    let bundle = draft.lay_out();
    assert_eq!(verify_ordered(&bundle, &RISING), Verdict::new(25, 1, 2));
}

#[test]
fn seven_and_eight_come_before_25_wherever_they_stand() {
    let bundle = classes(nested()).lay_out();
    let offset = |class| {
        let opened = Bundle::open(&bundle).expect("it is read");
        opened.class(class).offset
    };
    let mut no_instruction = bundle.clone();
    no_instruction[offset(2)] = 15;
    let told = Verdict::new(7, 2, 1);
    assert_eq!(verify_ordered(&no_instruction, &RISING), told);
    let mut no_row = bundle.clone();
    no_row[offset(2) + 4] = 1;
    let told = Verdict::new(8, 2, 1);
    assert_eq!(verify_ordered(&no_row, &RISING), told);
}

/// Reading 50.
#[test]
fn levels_beyond_the_class_count_are_not_looked_at() {
    let bundle = classes(nested()).lay_out();
    for beyond in [0, 1, 7, 255] {
        let mut levels = [beyond; 8];
        levels[..3].copy_from_slice(&[2, 1, 0]);
        assert_eq!(verify_ordered(&bundle, &levels).number, 0);
        levels[..3].copy_from_slice(&[1, 2, 0]);
        assert_eq!(verify_ordered(&bundle, &levels).number, 25);
    }
}

/// Unreached code is asked like any other: address 2 of `nested` is unreached,
/// and address 10 of class 0 here is not.
#[test]
fn reached_or_not() {
    let bundle = two_locks(false).lay_out();
    assert_eq!(verify_ordered(&bundle, &FALLING), Verdict::new(0, 2, 0));
    assert_eq!(verify_ordered(&bundle, &RISING), Verdict::new(25, 0, 10));
}

// "while a thread lives, some live thread's next step answers something other
// than 3"

/// What the next step of each live thread answers after these steps.
fn next_answers(bundle: &[u8], steps: &[u8]) -> Vec<u8> {
    let mut state = fresh(bundle).1;
    for &thread in steps {
        step(bundle, &mut state, thread, false);
    }
    let live = (0..8).filter(|&t| state.threads[usize::from(t)].live);
    live.map(|t| step(bundle, &mut state.clone(), t, false))
        .collect()
}

/// Each thread takes its first lock, and then wants that of the other.
#[test]
fn opposite_orders_stand_still() {
    let bundle = two_locks(true).lay_out();
    assert_eq!(verify(&bundle).number, 0);
    for levels in [RISING, FALLING, EQUAL] {
        assert_eq!(verify_ordered(&bundle, &levels).number, 25);
    }
    let begun = [0; 8];
    assert_eq!(next_answers(&bundle, &begun), [0, 0]);
    let locked = [&begun[..], &[0, 1]].concat();
    assert_eq!(next_answers(&bundle, &locked), [3, 3]);
}

/// In one order, whoever has taken the first lock goes on, and its end sets the
/// other free.
#[test]
fn one_order_goes_on() {
    let bundle = two_locks(false).lay_out();
    let locked = [0, 0, 0, 0, 0, 0, 0, 0, 0, 1];
    assert_eq!(next_answers(&bundle, &locked), [0, 3]);
    let both = [&locked[..], &[0]].concat();
    assert_eq!(next_answers(&bundle, &both), [0, 3]);
    let ended = [&both[..], &[0, 0, 0]].concat();
    assert_eq!(next_answers(&bundle, &ended), [0]);
    let other = [0, 0, 0, 0, 0, 0, 0, 0, 1, 1];
    assert_eq!(next_answers(&bundle, &other), [3, 0]);
}

/// Without a 25 the verdict is that without levels.
#[test]
fn other_verdicts_stay() {
    let mut seen = [0; 26];
    for seed in 0..2_000 {
        let (_, bundle) = families::bundle(seed);
        let verdict = verify_ordered(&bundle, &RISING);
        seen[usize::from(verdict.number)] += 1;
        if verdict.number != 25 {
            assert_eq!(verdict, verify(&bundle), "seed {seed}");
        }
    }
    assert!(seen[..=10].iter().chain(&seen[25..]).all(|&n| n > 0));
}
