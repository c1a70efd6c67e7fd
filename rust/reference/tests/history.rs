//! Counts that agree with the history: what a step meets, who lives, and both
//! numbers, by hand.

use generator::builder::{case_a, lay_out, Method, Row};
use generator::families::{contending, recurring, sharing, typed};
use generator::rng::Rng;
use generator::schedule::Scheduler;
use reference::bundle::{Addr, Bundle, Field, Instr, Var};
use reference::entries::Entry;
use reference::history::{Event, History, Numbers};
use reference::machine::{fresh, State, Value};
use reference::met::{met, Met};
use reference::slips::Slip;
use reference::state::{OBJECTS, THREADS};
use reference::verify::verify;

const V: Var = Var(0);
const W: Var = Var(1);
const ENTER: Instr = Instr::Enter(V, None);
const EXIT: Instr = Instr::Exit(V);
const START: Instr = Instr::Start(0);

fn meeting(instr: Instr, object: Option<u8>) -> Option<Met> {
    Some(Met { instr, object })
}

fn event(thread: u8, answer: u8, met: Option<Met>) -> Event {
    Event {
        thread,
        answer,
        met,
    }
}

/// A step on the lock of an object.
fn lock(thread: u8, instr: Instr, object: u8, answer: u8) -> Event {
    event(thread, answer, meeting(instr, Some(object)))
}

/// A step that meets no object.
fn plain(thread: u8, instr: Instr, answer: u8) -> Event {
    event(thread, answer, meeting(instr, None))
}

fn history(events: &[Event]) -> History {
    let mut history = History::default();
    events.iter().for_each(|&event| history.add(event));
    history
}

fn numbers(entered: usize, left: usize) -> Option<Numbers> {
    Some(Numbers { entered, left })
}

fn live(history: &History) -> Vec<u8> {
    (0..=255).filter(|&t| history.is_live(t)).collect()
}

/// One class with two variables and room for two entries; rows are not looked
/// at.
fn bundle(code: &[Instr]) -> Vec<u8> {
    let row = Row::new(&[Entry::Top, Entry::Top], &[]);
    lay_out(&[Method {
        fields: vec![0],
        variables: 2,
        stack_limit: 2,
        code: code.to_vec(),
        rows: vec![row; code.len()],
        ..Method::default()
    }])
}

/// What thread 0 meets at this instruction, with these two variables and object
/// 3 on its stack.
fn met_with(instr: Instr, variables: [Value; 2]) -> Option<Met> {
    let b = bundle(&[instr, Instr::Return]);
    let mut state = State::EMPTY;
    state.objects = 5;
    let thread = &mut state.threads[0];
    (thread.live, thread.address, thread.depth) = (true, 1, 1);
    thread.variables[..2].copy_from_slice(&variables);
    thread.stack[0] = Value::Ref(3);
    met(&b, &state, 0)
}

// "the instruction and object it met".

#[test]
fn lock_instructions_meet_what_their_variable_refers_to() {
    let variables = [Value::Ref(4), Value::Ref(0)];
    let caught = Instr::Enter(W, Some(Addr(2)));
    for (instr, object) in [(ENTER, 4), (EXIT, 4), (caught, 0), (Instr::Exit(W), 0)] {
        assert_eq!(met_with(instr, variables), meeting(instr, Some(object)));
    }
}

#[test]
fn null_and_integers_are_no_object() {
    for value in [Value::Null, Value::ZERO, Value::Int(1)] {
        for instr in [ENTER, Instr::Enter(V, Some(Addr(2))), EXIT] {
            let met = met_with(instr, [value, Value::Ref(1)]);
            assert_eq!(met, meeting(instr, None));
        }
    }
}

#[test]
fn other_instructions_meet_no_object() {
    let field = Field {
        class: 0,
        number: 0,
    };
    let others = [
        Instr::Inc,
        Instr::Pop,
        Instr::Push0,
        Instr::Load(V),
        Instr::Store(V),
        Instr::If(Addr(2)),
        Instr::New(0, None),
        START,
        Instr::Athrow(Some(Addr(2))),
        Instr::Return,
        Instr::Getfield(field, None),
        Instr::Putfield(field, Some(Addr(1))),
    ];
    for instr in others {
        assert_eq!(met_with(instr, [Value::Ref(4); 2]), meeting(instr, None));
    }
}

#[test]
fn a_run_of_case_a() {
    let b = lay_out(&[case_a()]);
    let opened = Bundle::open_with_code(&b).expect("a bundle");
    let (_, mut state) = fresh(&b);
    let mut history = History::default();
    for _ in 0..8 {
        history.step_in(&opened, &mut state, 0, false);
    }
    let told = [
        plain(0, Instr::New(0, None), 0),
        plain(0, Instr::Store(V), 0),
        lock(0, ENTER, 1, 0),
        plain(0, Instr::Push0, 0),
        plain(0, Instr::If(Addr(8)), 0),
        lock(0, EXIT, 1, 0),
        plain(0, Instr::Return, 1),
        event(0, 5, None),
    ];
    assert_eq!(history.events(), told);
}

#[test]
fn who_does_not_live_meets_nothing() {
    let b = lay_out(&[case_a()]);
    let (_, state) = fresh(&b);
    assert_eq!(met(&b, &state, 0), meeting(Instr::New(0, None), None));
    for thread in 1..=255 {
        assert_eq!(met(&b, &state, thread), None);
    }
    assert_eq!(met(&[], &fresh(&[]).1, 0), None);
    let mut foreign = state;
    foreign.threads[0].address = 10;
    assert_eq!(met(&b, &foreign, 0), None);
}

// "since it started".

#[test]
fn thread_0_is_live_at_first() {
    assert_eq!(live(&history(&[])), [0]);
    assert_eq!(history(&[]).numbers(0, 0), numbers(0, 0));
    assert_eq!(history(&[]).numbers(1, 0), None);
    assert_eq!(history(&[]).numbers(8, 0), None);
}

#[test]
fn a_start_takes_the_lowest_free_number() {
    let start = plain(0, START, 0);
    let ends = |thread| plain(thread, Instr::Return, 1);
    assert_eq!(live(&history(&[start, start])), [0, 1, 2]);
    assert_eq!(live(&history(&[start, start, ends(1)])), [0, 2]);
    assert_eq!(live(&history(&[start, start, ends(1), start])), [0, 1, 2]);
    let again = [start, ends(0), plain(1, START, 0)];
    assert_eq!(live(&history(&again)), [0, 1]);
    assert_eq!(live(&history(&[start; 7])), [0, 1, 2, 3, 4, 5, 6, 7]);
}

#[test]
fn only_a_start_that_answers_0_starts() {
    for given in [3, 4, 11, 13, 17, 18] {
        assert_eq!(live(&history(&[plain(0, START, given)])), [0], "{given}");
    }
    assert_eq!(live(&history(&[event(0, 0, None)])), [0]);
}

#[test]
fn only_1_and_2_end() {
    let athrow = |given| plain(0, Instr::Athrow(None), given);
    for given in [1, 2] {
        let ended = history(&[lock(0, ENTER, 1, 0), athrow(given)]);
        assert!(live(&ended).is_empty());
        assert_eq!(ended.numbers(0, 1), None);
    }
    for given in [0, 3, 5, 13, 15] {
        assert_eq!(live(&history(&[athrow(given)])), [0], "{given}");
    }
}

/// Both numbers begin anew with the thread; those of the threads before it
/// under the same number, and of others since, are not its own.
#[test]
fn a_number_that_is_started_again() {
    let events = [
        lock(0, ENTER, 1, 0),
        plain(0, START, 0),
        lock(1, ENTER, 2, 0),
        lock(1, EXIT, 2, 0),
        plain(1, Instr::Return, 1),
        plain(0, START, 0),
        lock(1, ENTER, 2, 0),
        lock(0, EXIT, 1, 0),
        lock(0, ENTER, 1, 0),
    ];
    let history = history(&events);
    assert_eq!(history.since_start(1), Some(&events[6..]));
    assert_eq!(history.since_start(0), Some(&events[..]));
    assert_eq!(history.numbers(1, 2), numbers(1, 0));
    assert_eq!(history.numbers(1, 1), numbers(0, 0));
    assert_eq!(history.numbers(0, 1), numbers(2, 1));
    assert_eq!(history.numbers(0, 2), numbers(0, 0));
    // The difference is the same.
    let earlier = Slip::EarlierThreadCounted.numbers(&history, 1, 2);
    assert_eq!(earlier, numbers(2, 1));
}

// "monitorenters on that object that answered 0 .., less its monitorexits that
// did".

#[test]
fn only_what_answered_0_counts() {
    for given in [3, 5, 13, 14, 16] {
        let refused = [lock(0, ENTER, 1, given), lock(0, EXIT, 1, given)];
        assert_eq!(history(&refused).numbers(0, 1), numbers(0, 0), "{given}");
    }
    let waits = history(&[lock(0, ENTER, 1, 3), lock(0, ENTER, 1, 0)]);
    assert_eq!(waits.numbers(0, 1), numbers(1, 0));
    assert_eq!(Slip::WaitsCounted.numbers(&waits, 0, 1), numbers(2, 0));
}

#[test]
fn re_entry_counts_by_object() {
    let by_w = lock(0, Instr::Enter(W, Some(Addr(3))), 1, 0);
    let events = [
        lock(0, ENTER, 1, 0),
        by_w,
        by_w,
        lock(0, EXIT, 1, 0),
        lock(0, ENTER, 2, 0),
    ];
    assert_eq!(history(&events).numbers(0, 1), numbers(3, 1));
    assert_eq!(history(&events).numbers(0, 2), numbers(1, 0));
    assert_eq!(history(&events).numbers(0, 0), numbers(0, 0));
}

/// Thread 0 locks what its object's field holds: null, and is caught.
#[test]
fn a_caught_null_counts_for_no_object() {
    let field = Field {
        class: 0,
        number: 0,
    };
    let enter = Instr::Enter(V, Some(Addr(4)));
    let b = bundle(&[
        Instr::Getfield(field, None),
        Instr::Store(V),
        enter,
        Instr::Return,
    ]);
    let opened = Bundle::open_with_code(&b).expect("a bundle");
    let (_, mut state) = fresh(&b);
    let thread = &mut state.threads[0];
    (thread.depth, thread.stack[0]) = (1, Value::Ref(0));
    let mut history = History::default();
    for _ in 0..2 {
        history.step_in(&opened, &mut state, 0, false);
    }
    let slipped = Slip::NullMeetsObject0.met(&opened, &state, 0);
    assert_eq!(slipped, meeting(enter, Some(0)));
    let miscounted = self::history(&[event(0, 0, slipped)]);
    assert_eq!(miscounted.numbers(0, 0), numbers(1, 0));
    history.step_in(&opened, &mut state, 0, false);
    assert_eq!(history.events()[2], plain(0, enter, 0));
    assert_eq!(state.threads[0].stack[0], Value::Ref(0));
    for object in 0..OBJECTS as u8 {
        assert_eq!(history.numbers(0, object), numbers(0, 0));
    }
}

#[test]
fn a_wait_meets_the_object_that_another_holds() {
    let b = bundle(&[ENTER, Instr::Return]);
    let (_, mut state) = fresh(&b);
    state.threads[0].variables[0] = Value::Ref(0);
    state.threads[1] = state.threads[0];
    let opened = Bundle::open_with_code(&b).expect("a bundle");
    let mut history = History::default();
    for thread in [0, 1] {
        history.step_in(&opened, &mut state, thread, false);
    }
    assert_eq!(
        history.events(),
        [lock(0, ENTER, 0, 0), lock(1, ENTER, 0, 3)]
    );
}

/// Of accepted bundles: after every step the history tells who lives, and the
/// difference of both numbers is the count.
#[test]
fn counts_agree_with_the_history() {
    let (mut held, mut again) = (0, 0);
    for seed in 0..200 {
        let mut rng = Rng::new(seed);
        let b = match seed % 4 {
            0 => contending::contending(&mut rng).lay_out(),
            1 => sharing::sharing(&mut rng).lay_out(),
            2 => recurring::recurring(&mut rng).lay_out(),
            _ => typed::well_typed(&mut rng),
        };
        assert_eq!(verify(&b).number, 0, "seed {seed}");
        let opened = Bundle::open_with_code(&b).expect("it is accepted");
        let (_, mut state) = fresh(&b);
        let mut history = History::default();
        let mut scheduler = Scheduler::new(seed);
        for _ in 0..100 {
            let turn = scheduler.turn(&state);
            history.step_in(&opened, &mut state, turn.thread(), turn.fails());
            held += agree(&history, &state);
        }
        let lives_again = |e: &&Event| matches!(e.answer, 1 | 2) && history.is_live(e.thread);
        again += history.events().iter().filter(lives_again).count();
    }
    assert!(held > 5_000 && again > 20, "{held} {again}");
}

/// How many counts are above zero.
fn agree(history: &History, state: &State) -> usize {
    let mut held = 0;
    for thread in 0..THREADS as u8 {
        let index = usize::from(thread);
        assert_eq!(history.is_live(thread), state.threads[index].live);
        for object in 0..OBJECTS as u8 {
            let count = usize::from(state.count(index, usize::from(object)));
            if let Some(Numbers { entered, left }) = history.numbers(thread, object) {
                assert_eq!(entered - left, count);
                held += usize::from(count > 0);
            }
        }
    }
    held
}
