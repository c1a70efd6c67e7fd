//! A list of steps run on a bundle that is accepted, by hand: what a byte says,
//! what is counted, what is passed over, and what comes with a refusal.

use generator::builder::{case_a, lay_out, Method, Row};
use generator::families::{self, contending, recurring, sharing, typed};
use generator::rng::Rng;
use reference::bundle::{Addr, Bundle, Instr, Var, Verdict};
use reference::entries::Entry;
use reference::machine::{fresh, step_in, State, Value};
use reference::run::{run, Ran};
use reference::slips::Slip;
use reference::verify::verify;

const V: Var = Var(0);

fn number(b: &[u8], list: &[u8]) -> u64 {
    run(b, list).number
}

fn case_a_bytes() -> Vec<u8> {
    lay_out(&[case_a()])
}

/// A method with one variable: each instruction with what its row says of the
/// variable, and its stack from the top.
fn method(arguments: &[u8], stack_limit: usize, lines: &[(Instr, Entry, &[Entry])]) -> Method {
    Method {
        arguments: arguments.to_vec(),
        variables: 1,
        stack_limit,
        code: lines.iter().map(|line| line.0).collect(),
        rows: lines.iter().map(|l| Row::new(&[l.1], l.2)).collect(),
        ..Method::default()
    }
}

/// Main makes object 1, starts a thread that gets it, and both take its lock
/// and give it back: main at 6 and 7, the other at 1 and 2.
fn two_that_want_one_lock() -> Vec<u8> {
    let (free, held) = (Entry::fresh(0), Entry::reference(0, 1, -1));
    let other = Entry::fresh(1);
    let main = method(
        &[],
        2,
        &[
            (Instr::New(0, None), Entry::Top, &[]),
            (Instr::Store(V), Entry::Top, &[free]),
            (Instr::New(1, None), free, &[]),
            (Instr::Load(V), free, &[other]),
            (Instr::Start(1), free, &[free, other]),
            (Instr::Enter(V, None), free, &[]),
            (Instr::Exit(V), held, &[]),
            (Instr::Return, free, &[]),
        ],
    );
    let started = method(
        &[0],
        0,
        &[
            (Instr::Enter(V, None), free, &[]),
            (Instr::Exit(V), held, &[]),
            (Instr::Return, free, &[]),
        ],
    );
    lay_out(&[main, started])
}

/// Each thread starts one more of its class, and returns.
fn one_more() -> Vec<u8> {
    let (top, made) = (Entry::Top, Entry::fresh(0));
    let lines: [(Instr, Entry, &[Entry]); 3] = [
        (Instr::New(0, None), top, &[]),
        (Instr::Start(0), top, &[made]),
        (Instr::Return, top, &[]),
    ];
    lay_out(&[method(&[], 1, &lines)])
}

#[test]
fn a_list_is_run_from_the_fresh_machine() {
    let b = case_a_bytes();
    // Six steps go on, the seventh returns.
    let ran = run(&b, &[0; 7]);
    let mut state = State::EMPTY;
    state.objects = 2;
    let verdict = Verdict::new(0, 1, 0);
    assert_eq!(
        ran,
        Ran {
            verdict,
            number: 7,
            state
        }
    );
    // After three it holds object 1 and stands at address 4.
    let ran = run(&b, &[0; 3]);
    assert_eq!((ran.number, ran.state.threads[0].address), (3, 4));
    assert_eq!((ran.state.count(0, 1), ran.state.held[0]), (1, 0b10));
}

#[test]
fn an_empty_list_gives_the_fresh_machine() {
    let b = case_a_bytes();
    let ran = run(&b, &[]);
    assert_eq!((ran.number, ran.state), (0, fresh(&b).1));
}

#[test]
fn answers_3_4_and_5_are_passed_over() {
    let b = two_that_want_one_lock();
    assert_eq!(verify(&b), Verdict::new(0, 2, 0));
    // Thread 1 takes the lock, thread 0 waits (3), and takes it when it is free.
    let ran = run(&b, &[0, 0, 0, 0, 0, 1, 0, 0, 1, 0]);
    assert_eq!(ran.number, 8);
    let mut state = State::EMPTY;
    (state.objects, state.classes[2]) = (3, 1);
    for (number, address) in [(0, 7), (1, 3)] {
        let thread = &mut state.threads[number];
        (thread.live, thread.class, thread.address) = (true, number as u8, address);
        thread.variables[0] = Value::Ref(1);
    }
    (state.counts[1], state.held[0]) = (1, 0b10);
    assert_eq!(ran.state, state);
    // Thread 2 was never started (5), which is no end of the list.
    assert_eq!(number(&b, &[2, 0, 2, 2, 0]), 2);
}

#[test]
fn a_start_with_eight_threads_live_is_passed_over() {
    let b = one_more();
    assert_eq!(verify(&b), Verdict::new(0, 1, 0));
    let all: Vec<u8> = (0..8).flat_map(|thread| [thread, thread]).collect();
    // The last start has no number to take (4), twice; then thread 0 returns,
    // and it takes that.
    assert_eq!(number(&b, &all), 15);
    assert_eq!(number(&b, &[&all[..], &[7]].concat()), 15);
    let ran = run(&b, &[&all[..], &[7, 0, 7]].concat());
    assert_eq!(ran.number, 17);
    assert!(ran.state.threads.iter().all(|thread| thread.live));
    assert_eq!(ran.state.threads[0].address, 1);
}

#[test]
fn the_low_three_bits_are_the_thread() {
    let b = two_that_want_one_lock();
    for ignored in [0x08, 0x10, 0x20, 0x40, 0x78] {
        let list: Vec<u8> = [0, 0, 0, 0, 0, 1].map(|byte| byte | ignored).to_vec();
        assert_eq!(run(&b, &list), run(&b, &[0, 0, 0, 0, 0, 1]), "{ignored:x}");
    }
    assert_eq!(number(&b, &[7, 0x7F, 0xFF]), 0);
}

#[test]
fn the_top_bit_says_that_new_fails() {
    let b = case_a_bytes();
    // Nobody catches it: the thread ends (2), which counts.
    let ran = run(&b, &[0x80, 0]);
    let mut state = State::EMPTY;
    state.objects = 1;
    assert_eq!((ran.number, ran.state), (1, state));
    assert_eq!(number(&b, &[0xF8; 2]), 1);
    assert_eq!(number(&b, &[0x78; 2]), 2);
    // It says nothing to other instructions.
    assert_eq!(run(&b, &[0, 0x80, 0x80]), run(&b, &[0; 3]));
}

/// push0, inc, and back again, for ever.
#[test]
fn more_steps_than_two_bytes_count() {
    let (top, int) = (Entry::Top, [Entry::Int]);
    let lines: [(Instr, Entry, &[Entry]); 4] = [
        (Instr::Push0, top, &[]),
        (Instr::Inc, top, &int),
        (Instr::If(Addr(1)), top, &int),
        (Instr::Return, top, &[]),
    ];
    let b = lay_out(&[method(&[], 1, &lines)]);
    assert_eq!(verify(&b), Verdict::new(0, 1, 0));
    // 23,333 turns and the push0 of one more.
    let ran = run(&b, &[0; 70_000]);
    let mut state = State::EMPTY;
    state.objects = 1;
    let thread = &mut state.threads[0];
    (thread.live, thread.address, thread.depth) = (true, 2, 1);
    assert_eq!((ran.number, ran.state), (70_000, state));
    let slipped = Slip::NumberOfTwoBytes.run(&b, &[0; 70_000]);
    assert_eq!(slipped.number, 70_000 - 65_536);
}

#[test]
fn a_waiter_goes_on_when_the_holder_has_ended() {
    let b = two_that_want_one_lock();
    // Thread 1 takes the lock, thread 0 waits (3) twice; thread 1 gives it back
    // and returns (1); thread 0 takes it, gives it back and returns (1).
    let list = [0, 0, 0, 0, 0, 1, 0, 0, 1, 1, 0, 0, 0];
    let ran = run(&b, &list);
    let mut state = State::EMPTY;
    (state.objects, state.classes[2]) = (3, 1);
    assert_eq!((ran.number, ran.state), (11, state));
    let slipped = |slip: Slip| slip.run(&b, &list).number;
    assert_eq!(slipped(Slip::StopsAtWait), 6);
    assert_eq!(slipped(Slip::StopsAtEnd), 8);
    assert_eq!(slipped(Slip::ReturnsUncounted), 9);
}

#[test]
fn a_refused_bundle_is_not_run() {
    let refused = |verdict| Ran {
        verdict,
        number: 0,
        state: State::EMPTY,
    };
    let mut late = case_a();
    late.code[4] = Instr::If(Addr(9));
    let why = Verdict::new(9, 0, 5).because(3);
    assert_eq!(run(&lay_out(&[late]), &[0; 4]), refused(why));
    // The dip of variable 0 in row 4 is 64: behind the code come rows of nine bytes.
    let mut deep = case_a_bytes();
    deep[9 * 4 + 3 * 9 + 2] = 64;
    assert_eq!(run(&deep, &[0; 4]), refused(Verdict::new(8, 0, 4)));
    let mut begun = case_a();
    begun.rows[0].variables[0] = Entry::Int;
    let first = Verdict::new(10, 0, 0);
    assert_eq!(run(&lay_out(&[begun]), &[0; 4]), refused(first));
    assert_eq!(run(&[], &[0; 4]), refused(Verdict::new(1, 0, 0)));
    assert_eq!(run(&[0; 8], &[]), refused(Verdict::new(2, 0, 0)));
}

/// The same by single steps, which look at bundle and state each time.
fn stepped(b: &[u8], list: &[u8]) -> Ran {
    let verdict = verify(b);
    let mut ran = Ran {
        verdict,
        number: 0,
        state: State::EMPTY,
    };
    if verdict.number == 0 {
        let bundle = Bundle::open_with_code(b).expect("it is accepted");
        ran.state = fresh(b).1;
        for &byte in list {
            let given = step_in(&bundle, &mut ran.state, byte & 7, byte & 0x80 != 0);
            assert!(given <= 5, "an accepted bundle answers {given}");
            ran.number += u64::from(given <= 2);
        }
    }
    ran
}

fn bundle(rng: &mut Rng, seed: u64) -> Vec<u8> {
    match seed % 5 {
        0 => families::bundle(seed).1,
        1 => contending::contending(rng).lay_out(),
        2 => sharing::sharing(rng).lay_out(),
        3 => recurring::recurring(rng).lay_out(),
        _ => typed::well_typed(rng),
    }
}

/// Long lists of any bytes, most of them of thread 0, so that all goes on.
fn list(rng: &mut Rng) -> Vec<u8> {
    let bytes = rng.bytes(600);
    let quiet = rng.chance(3, 4);
    let turn = |byte: u8| match byte % 3 {
        _ if quiet && byte & 0x70 != 0 => byte & 0x7F,
        0 => byte,
        _ => byte & 0x79,
    };
    bytes.into_iter().map(turn).collect()
}

#[test]
fn a_list_comes_to_what_its_steps_do() {
    let mut steps = 0;
    for seed in 0..2_000 {
        let mut rng = Rng::new(seed);
        let b = bundle(&mut rng, seed);
        let list = list(&mut rng);
        let ran = run(&b, &list);
        assert_eq!(ran, stepped(&b, &list), "seed {seed}");
        steps += ran.number;
    }
    assert!(steps > 50_000, "{steps}");
}

#[test]
fn slips() {
    let a = case_a_bytes();
    let told = |slip: Slip, b: &[u8], list: &[u8]| (number(b, list), slip.run(b, list).number);
    let waiting = [0, 0, 0, 0, 0, 1, 0, 0];
    let b = two_that_want_one_lock();
    assert_eq!(told(Slip::CountsWaits, &b, &waiting), (6, 8));
    assert_eq!(told(Slip::ThreadOfFourBits, &a, &[0, 8]), (2, 1));
    assert_eq!(told(Slip::BitSixFails, &a, &[0x40; 2]), (2, 1));
    assert_eq!(told(Slip::FailsAbove128, &a, &[0x80; 2]), (1, 2));
    assert_eq!(told(Slip::FailsAbove128, &a, &[0x88; 2]), (1, 1));
    assert_eq!(told(Slip::UncaughtUncounted, &a, &[0x80; 2]), (1, 0));
    assert_eq!(told(Slip::StopsAtNotLive, &a, &[0, 1, 0]), (2, 1));
    assert_eq!(told(Slip::LastStepLeftOut, &a, &[0; 2]), (2, 1));
    // All numbers are taken, one more start is tried, and thread 0 returns.
    let mut all: Vec<u8> = (0..8).flat_map(|thread| [thread, thread]).collect();
    all.push(0);
    assert_eq!(told(Slip::CountsFullStarts, &one_more(), &all), (16, 17));
    assert_eq!(told(Slip::StopsAtFullStart, &one_more(), &all), (16, 15));
    let mut late = case_a();
    late.code[4] = Instr::If(Addr(9));
    let late = lay_out(&[late]);
    assert_eq!(told(Slip::RefusedIsRun, &late, &[0; 3]), (0, 3));
    let slipped = Slip::RefusedStateIsFresh.run(&late, &[0; 3]);
    assert_eq!(slipped.state, fresh(&late).1);
}
