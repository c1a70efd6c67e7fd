//! The proved code behind its C calls, on the cases of document 01.

use comparison::gates::blank;
use comparison::orders::{inputs, Input};
use comparison::{digest, lists, proved};
use generator::builder::{case_a, lay_out, Method, Row};
use generator::families::{self, recurring, sharing, typed};
use generator::pairs::unpaired;
use generator::rng::Rng;
use generator::schedule::{any_state, schedule};
use generator::weaves::weave;
use reference::bundle::{Addr, Bundle, Instr, Verdict};
use reference::entries::Entry;
use reference::history::{Event, History, Numbers};
use reference::machine::{fresh, step, State};
use reference::met::Met;
use reference::run::Ran;
use reference::slips::Slip;
use trace::{encode_state, Turn};

#[test]
fn cases_a_b_c_and_l() {
    let mut method = case_a();
    assert_eq!(
        proved::verdict(&lay_out(&[method.clone()])),
        Verdict::new(0, 1, 0)
    );
    method.code[4] = Instr::If(Addr(9));
    assert_eq!(
        proved::verdict(&lay_out(&[method.clone()])),
        Verdict::new(9, 0, 5).because(3)
    );
    method.rows[8].variables[0] = Entry::reference(0, 1, -1);
    assert_eq!(
        proved::verdict(&lay_out(&[method])),
        Verdict::new(9, 0, 8).because(2)
    );
    assert_eq!(proved::verdict(&[]), Verdict::new(1, 0, 0));
}

#[test]
fn a_run_of_case_a() {
    let bundle = lay_out(&[case_a()]);
    // Seven steps end thread 0, the eighth finds it not live: 0 * 5, 1, 5.
    assert_eq!(proved::digest(&bundle, &[0; 8]), 31 + 5);
    assert_eq!(digest::of_run(&bundle, &[0; 8]), 31 + 5);
    // The first new fails: 2 for the thread that ends, then 5.
    assert_eq!(proved::digest(&bundle, &[0x80, 0]), 2 * 31 + 5);
    // No bundle: 17 from the fresh machine, and again from a step.
    assert_eq!(proved::digest(&[], &[0]), 17 * 31 + 17);
}

/// In case A object 1 is held from the third step to the sixth.
#[test]
fn held_in_a_run_of_case_a() {
    let bundle = lay_out(&[case_a()]);
    let (_, mut state) = fresh(&bundle);
    for number in [0, 0, 1, 1, 1, 0] {
        step(&bundle, &mut state, 0, false);
        let bytes = encode_state(&state);
        assert_eq!(proved::held(&bundle, &bytes, 0), Some((0, number)));
        assert_eq!(proved::held(&bundle, &bytes, 1), Some((5, 0)));
    }
    state.held[7] = 1;
    let bytes = encode_state(&state);
    assert_eq!(proved::held(&bundle, &bytes, 0), Some((18, 0)));
    assert_eq!(proved::held(&bundle, &bytes, 255), Some((18, 0)));
    assert_eq!(proved::held(&[], &bytes, 255), Some((17, 0)));
    assert_eq!(proved::held(&bundle, &bytes[1..], 0), None);
}

/// In case A the third step takes the lock of object 1, and the sixth gives it
/// back.
#[test]
fn meets_in_a_run_of_case_a() {
    let bundle = lay_out(&[case_a()]);
    let meets = |steps: usize, thread| proved::meets(&bundle, &[0; 8][..steps], thread);
    assert_eq!(meets(0, 0), Some(([9, 0, 0, 0], None)));
    assert_eq!(meets(2, 0), Some(([7, 0, 0, 0], Some(1))));
    assert_eq!(meets(4, 0), Some(([6, 0, 0, 8], None)));
    assert_eq!(meets(5, 0), Some(([8, 0, 0, 0], Some(1))));
    assert_eq!(meets(6, 0), Some(([12, 0, 0, 0], None)));
    for (steps, thread) in [(7, 0), (8, 0), (0, 1), (0, 8), (0, 16), (2, 255)] {
        assert_eq!(meets(steps, thread), None);
    }
    // The first new fails, and nobody catches it.
    assert_eq!(proved::meets(&bundle, &[0x80], 0), None);
    assert_eq!(proved::meets(&[], &[], 0), None);
    assert_eq!(proved::meets(&bundle[1..], &[0], 0), None);
}

/// Bits 3 to 6 say nothing, threads 1 and 7 were never started, and the top
/// bit says something to new alone.
#[test]
fn lists_of_case_a() {
    let bundle = lay_out(&[case_a()]);
    let comes_to = |list: &[u8], number: u64, state: &State| {
        let (told, bytes) = proved::run(&bundle, list);
        assert_eq!(told, Ok(number), "{list:x?}");
        assert_eq!(bytes.as_slice(), encode_state(state), "{list:x?}");
    };
    let mut state = fresh(&bundle).1;
    comes_to(&[], 0, &state);
    comes_to(&[1, 7, 0x7F, 0xFF], 0, &state);
    for _ in 0..3 {
        step(&bundle, &mut state, 0, false);
    }
    comes_to(&[0, 0, 0], 3, &state);
    comes_to(&[0x08, 0x01, 0xF0, 0x7F, 0x78], 3, &state);
    let mut state = State::EMPTY;
    state.objects = 2;
    comes_to(&[0; 8], 7, &state);
    state.objects = 1;
    comes_to(&[0xF8, 0], 1, &state);
}

/// Case A with a change, and the verdict that comes of it.
fn refusals_of_case_a() -> Vec<(Vec<u8>, Verdict)> {
    let changed = |change: fn(&mut Method)| {
        let mut method = case_a();
        change(&mut method);
        lay_out(&[method])
    };
    let owing = Entry::reference(0, 1, -1);
    let rule = |address, why| Verdict::new(9, 0, address).because(why);
    // The dip of variable 0 in row 4 is 64: behind the code come rows of nine bytes.
    let mut deep = lay_out(&[case_a()]);
    deep[9 * 4 + 3 * 9 + 2] = 64;
    let mut late = case_a();
    late.code[4] = Instr::If(Addr(9));
    late.rows[8].variables[0] = owing;
    vec![
        (deep, Verdict::new(8, 0, 4)),
        (
            changed(|m| m.rows[0].variables[0] = Entry::Int),
            Verdict::new(10, 0, 0),
        ),
        (changed(|m| m.rows[4].stack[0] = Entry::Top), rule(5, 0)),
        (
            changed(|m| m.rows[4].stack[0] = Entry::fresh(0)),
            rule(4, 1),
        ),
        (lay_out(&[late]), rule(8, 2)),
        (changed(|m| m.code[4] = Instr::If(Addr(9))), rule(5, 3)),
    ]
}

/// 19 carries the whole verdict, the why that lies above its 40th bit too.
#[test]
fn lists_of_refused_bundles() {
    for (bundle, verdict) in refusals_of_case_a() {
        let refused = proved::run(&bundle, &[0; 8]);
        assert_eq!(refused, (Err(verdict), [0; proved::STATE_BYTES]));
    }
    let none = proved::run(&[], &[]);
    assert_eq!(none, (Err(Verdict::new(1, 0, 0)), [0; proved::STATE_BYTES]));
}

/// push0, inc, and back again: 70,000 steps are 23,333 turns and one step more.
#[test]
fn a_list_of_more_steps_than_two_bytes_count() {
    let method = Method {
        stack_limit: 1,
        code: vec![Instr::Push0, Instr::Inc, Instr::If(Addr(1)), Instr::Return],
        rows: vec![
            Row::new(&[], &[]),
            Row::new(&[], &[Entry::Int]),
            Row::new(&[], &[Entry::Int]),
            Row::new(&[], &[]),
        ],
        ..Method::default()
    };
    let mut state = State::EMPTY;
    state.objects = 1;
    let thread = &mut state.threads[0];
    (thread.live, thread.address, thread.depth) = (true, 2, 1);
    let (told, bytes) = proved::run(&lay_out(&[method]), &[0; 70_000]);
    assert_eq!(told, Ok(70_000));
    assert_eq!(bytes.as_slice(), encode_state(&state));
}

/// A failed new finds its handler, which drops what was thrown and returns.
#[test]
fn a_thrown_object() {
    let method = Method {
        stack_limit: 1,
        code: vec![Instr::New(0, Some(Addr(2))), Instr::Pop, Instr::Return],
        rows: vec![
            Row::new(&[], &[]),
            Row::new(&[], &[Entry::fresh(0)]),
            Row::new(&[], &[]),
        ],
        ..Method::default()
    };
    let mut bundle = lay_out(&[method]);
    assert_eq!(proved::verdict(&bundle), Verdict::new(0, 1, 0));
    assert_eq!(proved::digest(&bundle, &[0x80, 0, 0, 0]), 31 + 5);
    // The spare byte names a class that isn't there.
    let spare = bundle.len() - 5;
    bundle[spare] = 1;
    assert_eq!(proved::verdict(&bundle), Verdict::new(3, 0, 0));
}

/// Were one side to make a slip, the comparison would show it.
#[test]
fn a_slipped_verifier_differs_from_the_proved_one() {
    let mut differing = Slip::VERIFIER.map(|slip| (slip, 0));
    for seed in 0..8_000 {
        let (_, b) = families::bundle(seed);
        let proved = proved::verdict(&b);
        for (slip, count) in &mut differing {
            *count += usize::from(slip.verify(&b) != proved);
        }
    }
    assert!(differing.iter().all(|&(_, n)| n >= 10), "{differing:?}");
}

/// The same under lock orders.
#[test]
fn a_slipped_order_differs_from_the_proved_one() {
    let slips = Slip::STANDSTILL.into_iter().chain(Slip::ORDER);
    let mut differing: Vec<(Slip, usize)> = slips.map(|slip| (slip, 0)).collect();
    for Input { bundle, list, .. } in (0..400).flat_map(inputs) {
        let proved = proved::ordered(&bundle, &list);
        for (slip, count) in &mut differing {
            *count += usize::from(slip.verify_ordered(&bundle, &list) != proved);
        }
    }
    assert!(differing.iter().all(|&(_, n)| n >= 10), "{differing:?}");
}

/// Whether some answer of a run differs.
fn runs_otherwise(slip: Slip, seed: u64) -> bool {
    let mut rng = Rng::new(seed);
    let b = match seed % 2 {
        0 => typed::well_typed(&mut rng),
        _ => sharing::sharing(&mut rng).lay_out(),
    };
    let turns = schedule(&b, &fresh(&b).1, seed, 100);
    digest::of_slipped_run(&b, &turns, slip) != proved::digest(&b, &turns)
}

/// Whether a number of objects held differs.
fn holds_otherwise(slip: Slip, seed: u64) -> bool {
    let mut rng = Rng::new(seed);
    let b = typed::well_typed(&mut rng);
    let bundle = Bundle::open_with_code(&b).expect("it is accepted");
    let state = any_state(&mut rng, &b);
    let bytes = encode_state(&state);
    (0..8).any(|thread| {
        let proved = proved::held(&b, &bytes, thread);
        proved != Some(slip.held(&bundle, &state, thread))
    })
}

#[test]
fn a_slipped_machine_differs_from_the_proved_one() {
    for slip in Slip::MACHINE {
        let differing = (0..1_000).filter(|&seed| runs_otherwise(slip, seed));
        let differing = differing.count();
        assert!(differing >= 10, "{slip:?}: {differing}");
    }
}

/// What one side says of a list, and the bytes of the state.
fn told(ran: &Ran) -> (Result<u64, Verdict>, Vec<u8>) {
    let told = match ran.verdict.number {
        0 => Ok(ran.number),
        _ => Err(ran.verdict),
    };
    (told, encode_state(&ran.state))
}

#[test]
fn a_slipped_list_differs_from_the_proved_one() {
    let mut differing = Slip::LISTS.map(|slip| (slip, 0));
    for (b, list) in (0..800).map(lists::input) {
        let (number, state) = proved::run(&b, &list);
        let proved = (number, state.to_vec());
        for (slip, count) in &mut differing {
            *count += usize::from(told(&slip.run(&b, &list)) != proved);
        }
    }
    assert!(differing.iter().all(|&(_, n)| n >= 10), "{differing:?}");
}

#[test]
fn slipped_pairs_differ_from_the_proved_ones() {
    let mut differing = Slip::PAIRS.map(|slip| (slip, 0));
    for b in (0..4_000).map(|seed| unpaired(seed).bundle) {
        let mut filled = b.clone();
        let proved = proved::fill(&mut filled);
        for (slip, count) in &mut differing {
            let mut slipped = b.clone();
            let told = slip.fill(&mut slipped);
            *count += usize::from(told != proved || slipped != filled);
        }
    }
    assert!(differing.iter().all(|&(_, n)| n >= 10), "{differing:?}");
}

/// Whether a call of the gate is answered otherwise, or something else is written.
fn gates_otherwise(slip: Slip, seed: u64) -> bool {
    let weave = weave(seed);
    let (mut slipped, mut out) = (blank(weave.room), blank(weave.room));
    let told = slip.gate(&weave.parts.lent(), &mut slipped);
    told != proved::gate(&weave.parts.lent(), &mut out) || slipped != out
}

/// On the calls that the check compares; some take many to be seen.
#[test]
fn a_slipped_gate_differs_from_the_proved_one() {
    for slip in Slip::GATE {
        let differing = (0..10_000).filter(|&seed| gates_otherwise(slip, seed));
        let differing = differing.take(10).count();
        assert_eq!(differing, 10, "{slip:?}");
    }
}

/// Whether a step of a run meets something else.
fn meets_otherwise(slip: Slip, seed: u64) -> bool {
    let b = sharing::sharing(&mut Rng::new(seed)).lay_out();
    let bundle = Bundle::open_with_code(&b).expect("it is accepted");
    let mut state = fresh(&b).1;
    let turns = schedule(&b, &state, seed, 40);
    turns.iter().enumerate().any(|(steps, &byte)| {
        let turn = Turn(byte);
        let met = slip.met(&bundle, &state, turn.thread());
        let met = met.map(|met| (met.instr.bytes(), met.object));
        step(&b, &mut state, turn.thread(), turn.fails());
        met != proved::meets(&b, &turns[..steps], turn.thread())
    })
}

#[test]
fn a_slipped_meeting_differs_from_the_proved_one() {
    for slip in [Slip::NullMeetsObject0, Slip::StartMeetsObject] {
        let differing = (0..100).filter(|&seed| meets_otherwise(slip, seed));
        let differing = differing.count();
        assert!(differing >= 10, "{slip:?}: {differing}");
    }
    for slip in [Slip::WaitsCounted, Slip::EarlierThreadCounted] {
        assert!((0..20).all(|seed| !meets_otherwise(slip, seed)));
    }
}

/// The proved machine's history of a run.
fn proved_history(b: &[u8], turns: &[u8]) -> History {
    let mut history = History::default();
    let mut before = proved::digest(b, &[]);
    for (steps, &byte) in turns.iter().enumerate() {
        let thread = Turn(byte).thread();
        let digest = proved::digest(b, &turns[..=steps]);
        let answer = (0..=18).find(|&answer| digest::mixed(before, answer) == digest);
        let met = proved::meets(b, &turns[..steps], thread);
        history.add(Event {
            thread,
            answer: answer.expect("an answer"),
            met: met.map(|(raw, object)| Met {
                instr: Instr::read(raw),
                object,
            }),
        });
        before = digest;
    }
    history
}

/// A slipped count of the proved machine's history shows: by the numbers, and
/// that of waits by their difference too, which is no count.
#[test]
fn a_slipped_count_differs_from_the_history() {
    let (mut waits, mut uncounted, mut earlier) = (0, 0, 0);
    for seed in 0..40 {
        let b = recurring::recurring(&mut Rng::new(seed)).lay_out();
        let turns = schedule(&b, &fresh(&b).1, seed, 80);
        let history = proved_history(&b, &turns);
        let mut state = fresh(&b).1;
        for &byte in &turns {
            step(&b, &mut state, Turn(byte).thread(), Turn(byte).fails());
        }
        for (thread, object) in (0..8).flat_map(|t| (0..32).map(move |o| (t, o))) {
            let told = history.numbers(thread, object);
            let of = |slip: Slip| slip.numbers(&history, thread, object);
            let count = usize::from(state.count(usize::from(thread), usize::from(object)));
            let agrees = |told: Option<Numbers>| told.is_none_or(|n| n.entered == n.left + count);
            assert!(agrees(told));
            assert!(agrees(of(Slip::EarlierThreadCounted)));
            waits += usize::from(of(Slip::WaitsCounted) != told);
            uncounted += usize::from(!agrees(of(Slip::WaitsCounted)));
            earlier += usize::from(of(Slip::EarlierThreadCounted) != told);
        }
    }
    assert!(
        waits >= 10 && waits == uncounted && earlier >= 10,
        "{waits} {uncounted} {earlier}"
    );
}

#[test]
fn a_slipped_word_differs_from_the_proved_one() {
    for slip in Slip::WORDS {
        let in_runs = (0..1_000).filter(|&seed| runs_otherwise(slip, seed));
        let asked = (0..5_000).filter(|&seed| holds_otherwise(slip, seed));
        let differing = in_runs.count() + asked.count();
        assert!(differing >= 10, "{slip:?}: {differing}");
    }
}
