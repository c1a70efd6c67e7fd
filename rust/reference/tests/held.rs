//! The held words: every sentence of the request, from both sides.

mod common;

use common::{judge, run, run_through};
use generator::builder::{case_a, lay_out, Method, Row};
use reference::bundle::{Bundle, Instr, Var};
use reference::entries::Entry;
use reference::machine::{answer, fresh, held, step, State, Value};
use reference::slips::Slip;
use reference::state::{MAX_COUNT, OBJECTS, THREADS};

const V: Var = Var(0);
const W: Var = Var(1);
const BIT_31: u32 = 1 << 31;

/// One class with two variables and room for one entry; rows are not looked at.
fn bundle(code: &[Instr]) -> Vec<u8> {
    let row = Row::new(&[Entry::Top, Entry::Top], &[]);
    lay_out(&[Method {
        variables: 2,
        stack_limit: 1,
        code: code.to_vec(),
        rows: vec![row; code.len()],
        ..Method::default()
    }])
}

fn bench() -> Vec<u8> {
    let enter = |v| Instr::Enter(v, None);
    let code = [
        enter(V),
        enter(W),
        enter(V),
        Instr::Exit(V),
        Instr::Exit(W),
        Instr::Exit(V),
        Instr::Return,
    ];
    bundle(&code)
}

/// All 32 objects; threads 0 and 1 live at address 1, with references to these
/// two objects.
fn state(v: u8, w: u8) -> State {
    let mut state = State::EMPTY;
    state.objects = OBJECTS as u8;
    for thread in &mut state.threads[..2] {
        (thread.live, thread.address) = (true, 1);
        thread.variables[..2].copy_from_slice(&[Value::Ref(v), Value::Ref(w)]);
    }
    state
}

/// The state with this count of thread and object, and this word of the thread.
fn with(mut state: State, thread: usize, object: usize, count: u16, word: u32) -> State {
    state.counts[thread * OBJECTS + object] = count;
    state.held[thread] = word;
    state
}

/// What a step and the question answer: the same, but for the number.
fn refusal(bundle: &[u8], state: &State, thread: u8) -> u8 {
    let mut next = state.clone();
    let given = step(bundle, &mut next, thread, false);
    assert_eq!(held(bundle, state, thread), (given, 0), "{thread}");
    assert_eq!(next, *state);
    given
}

#[test]
fn a_fresh_machine_has_words_of_0() {
    let b = bench();
    let (_, state) = fresh(&b);
    assert_eq!(state.held, [0; THREADS]);
    assert_eq!(fresh(&[]).1.held, [0; THREADS]);
    assert_eq!(held(&b, &state, 0), (0, 0));
}

// "bit i set exactly when its count for object i is above zero".

#[test]
fn a_bit_is_that_of_its_object() {
    let b = bench();
    for object in 0..OBJECTS as u8 {
        let (given, next) = run(&b, &state(object, 0), false);
        assert_eq!((given, next.held[0]), (0, 1 << object));
        assert_eq!(next.held[1..], [0; 7]);
    }
}

#[test]
fn a_bit_stays_while_the_count_is_above_zero() {
    let b = bench();
    let mut state = state(31, 0);
    let words = [BIT_31, BIT_31 | 1, BIT_31 | 1, BIT_31 | 1, BIT_31, 0, 0];
    let numbers = [1, 2, 2, 2, 1, 0];
    for (at, word) in words.into_iter().enumerate() {
        let given = step(&b, &mut state, 0, false);
        assert_eq!(given, u8::from(at == 6), "{at}");
        assert_eq!(state.held[0], word, "{at}");
        assert_eq!(state.held[1..], [0; 7]);
        match numbers.get(at) {
            Some(&number) => assert_eq!(held(&b, &state, 0), (0, number), "{at}"),
            None => assert_eq!(held(&b, &state, 0), (5, 0)),
        }
    }
}

/// In case A object 1 is held from the third step to the sixth.
#[test]
fn a_run_of_case_a() {
    let b = lay_out(&[case_a()]);
    let words = [0, 0, 0, 2, 2, 2, 0, 0];
    for (steps, word) in words.into_iter().enumerate() {
        let (_, state) = run_through(&b, steps);
        assert_eq!(state.held[0], word, "{steps}");
    }
}

/// Two variables that name one object share its bit.
#[test]
fn one_object_by_two_names_is_held_once() {
    let b = bench();
    let mut state = state(4, 4);
    for (word, number) in [(16, 1), (16, 1), (16, 1), (16, 1), (16, 1), (0, 0)] {
        assert_eq!(step(&b, &mut state, 0, false), 0);
        assert_eq!(state.held[0], word);
        assert_eq!(held(&b, &state, 0), (0, number));
    }
}

#[test]
fn a_thread_that_waits_has_no_bit() {
    let b = bench();
    let before = with(state(3, 0), 1, 3, 1, 8);
    let (given, next) = run(&b, &before, false);
    assert_eq!((given, &next), (3, &before));
    assert_eq!(held(&b, &next, 0), (0, 0));
    assert_eq!(held(&b, &next, 1), (0, 1));
}

/// A number is free again, and who starts there holds nothing.
#[test]
fn a_started_thread_has_a_word_of_0() {
    let b = bundle(&[Instr::Start(0), Instr::Return]);
    let mut before = with(state(0, 0), 0, 9, 2, 512);
    before.threads[1].live = false;
    before.threads[0].stack[0] = Value::Ref(5);
    before.threads[0].depth = 1;
    let (given, next) = run(&b, &before, false);
    assert_eq!((given, next.threads[1].live), (0, true));
    assert_eq!((next.held[0], next.held[1]), (512, 0));
    assert_eq!(held(&b, &next, 1), (0, 0));
}

// The number.

#[test]
fn the_number_is_that_of_the_bits() {
    let b = bench();
    let mut all = state(0, 0);
    for object in 0..OBJECTS {
        all.counts[object] = if object % 2 == 0 { 1 } else { MAX_COUNT };
        all.held[0] |= 1 << object;
        assert_eq!(held(&b, &all, 0), (0, object as u8 + 1));
    }
    assert_eq!(all.held[0], u32::MAX);
    assert_eq!(held(&b, &all, 1), (0, 0));
    let last = with(state(0, 0), 1, 31, 7, BIT_31);
    assert_eq!(held(&b, &last, 1), (0, 1));
    assert_eq!(held(&b, &last, 0), (0, 0));
}

#[test]
fn the_question_needs_no_step_that_goes_on() {
    // Thread 0 stands at a monitorexit of what it does not hold: 14.
    let b = bundle(&[Instr::Exit(V), Instr::Return]);
    let before = with(state(2, 0), 0, 5, 1, 32);
    assert_eq!(run(&b, &before, false).0, answer::EXIT_AT_ZERO);
    assert_eq!(held(&b, &before, 0), (0, 1));
}

// 18 where word and counts disagree, for any of the eight threads.

#[test]
fn a_bit_too_many_is_18() {
    let b = bench();
    for thread in 0..THREADS {
        for bit in 0..32 {
            let wrong = with(state(0, 0), thread, 0, 0, 1 << bit);
            let live = thread as u8;
            assert_eq!(refusal(&b, &wrong, 0), 18, "{thread} {bit}");
            assert_eq!(refusal(&b, &wrong, live), 18, "{thread} {bit}");
        }
    }
}

#[test]
fn a_bit_too_few_is_18() {
    let b = bench();
    for thread in 0..2 {
        for object in [0, 1, 30, 31] {
            let right = with(state(0, 0), thread, object, 1, 1 << object);
            assert_eq!(held(&b, &right, thread as u8), (0, 1));
            for word in [0, 1 << ((object + 1) % 32), (1 << object) ^ u32::MAX] {
                let wrong = with(right.clone(), thread, object, 1, word);
                assert_eq!(refusal(&b, &wrong, 0), 18, "{thread} {object} {word}");
                assert_eq!(refusal(&b, &wrong, 1), 18, "{thread} {object} {word}");
            }
        }
    }
}

#[test]
fn another_thread_s_bit_is_18() {
    let b = bench();
    let mut wrong = with(state(0, 0), 0, 6, 1, 0);
    wrong.held[1] = 64;
    assert_eq!(refusal(&b, &wrong, 0), 18);
}

#[test]
fn a_bit_of_no_object_is_18() {
    let b = bench();
    let mut few = state(0, 0);
    few.objects = 2;
    for bit in [2, 31] {
        let wrong = with(few.clone(), 0, 0, 0, 1 << bit);
        assert_eq!(refusal(&b, &wrong, 0), 18);
        // Nor with a count there, which is 18 by itself.
        let both = with(few.clone(), 0, bit, 1, 1 << bit);
        assert_eq!(refusal(&b, &both, 0), 18);
    }
}

/// A thread that isn't live has counts of 0, so its word is 0.
#[test]
fn the_word_of_a_thread_that_is_not_live() {
    let b = bench();
    for thread in 2..THREADS {
        let wrong = with(state(0, 0), thread, 0, 0, 2);
        assert_eq!(refusal(&b, &wrong, 0), 18);
        // A word that agrees with a count that may not be there helps nothing.
        let both = with(state(0, 0), thread, 1, 1, 2);
        assert_eq!(refusal(&b, &both, 0), 18);
    }
}

// The question draws 17, 18 and 5 as a step does, in this order.

#[test]
fn refusals_in_their_order() {
    let b = bench();
    let right = state(0, 0);
    let wrong = with(right.clone(), 3, 0, 0, 1);
    for thread in 0..=255 {
        assert_eq!(refusal(&[], &right, thread), 17);
        assert_eq!(refusal(&[], &wrong, thread), 17);
        assert_eq!(refusal(&b, &wrong, thread), 18);
        match thread {
            0 | 1 => assert_eq!(held(&b, &right, thread), (0, 0)),
            _ => assert_eq!(refusal(&b, &right, thread), 5),
        }
    }
}

/// A bundle whose rows break their rules can be asked.
#[test]
fn rows_are_not_read() {
    let b = bench();
    assert_eq!(judge(&b).number, 9);
    assert_eq!(held(&b, &fresh(&b).1, 0), (0, 0));
}

// The slips are what their names say.

#[test]
fn slips_of_the_words() {
    let b = bench();
    let opened = Bundle::open_with_code(&b).expect("it can be run");
    let right = with(state(0, 0), 0, 31, 1, BIT_31);
    let spoiled = |thread: usize, word| {
        let mut state = right.clone();
        state.held[thread] = word;
        state
    };
    use Slip::{BitTooFewBelongs, BitTooManyBelongs, BitsOnlyCounted, IdleWordIgnored};
    let told: [(&[Slip], State); 4] = [
        (&[IdleWordIgnored, BitTooManyBelongs], spoiled(7, 1)),
        (&[BitTooManyBelongs], spoiled(0, BIT_31 | 1)),
        (&[BitTooFewBelongs], spoiled(0, 0)),
        (&[BitsOnlyCounted], spoiled(0, 1)),
    ];
    for (passing, state) in &told {
        assert_eq!(held(&b, state, 0), (18, 0));
        for slip in Slip::WORDS {
            let passes = passing.contains(&slip);
            let wanted = if passes { (0, 1) } else { (18, 0) };
            assert_eq!(slip.held(&opened, state, 0), wanted, "{slip:?}");
        }
    }
    assert_eq!(Slip::LastBitNotCounted.held(&opened, &right, 0), (0, 0));
}

#[test]
fn slips_of_the_step() {
    let b = bench();
    let opened = Bundle::open_with_code(&b).expect("it can be run");
    let mut next = state(31, 0);
    Slip::BitOfAnotherObject.step(&opened, &mut next, 0, false);
    assert_eq!((next.counts[31], next.held[0]), (1, 1));
    let mut next = with(state(5, 0), 0, 5, 2, 32);
    next.threads[0].address = 4;
    Slip::ExitClearsBit.step(&opened, &mut next, 0, false);
    assert_eq!((next.counts[5], next.held[0]), (1, 0));
}
