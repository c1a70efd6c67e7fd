//! The generated inputs are varied enough to be worth comparing on.

use generator::families::{self, contending, nesting, sharing, typed, unpaired};
use generator::lively::{FieldUse, Lively};
use generator::marks::MARKS;
use generator::rng::Rng;
use generator::schedule::{damaged_state, valid_state, Scheduler};
use generator::words::{WrongWord, MARKS as WORD_MARKS};
use reference::belongs::belongs;
use reference::bundle::{Bundle, Instr};
use reference::fill::fill;
use reference::levels::Demands;
use reference::machine::{answer, fresh};
use reference::slips::Slip;
use reference::state::{OBJECTS, THREADS};
use reference::verify::verify;

#[test]
fn a_seed_gives_one_bundle() {
    assert!((0..200).all(|seed| families::bundle(seed) == families::bundle(seed)));
}

#[test]
fn every_verdict_and_every_mark_comes_up() {
    let mut verdicts = [0; 11];
    let mut marks = MARKS.map(|(name, _)| (name, 0));
    for seed in 0..5_000 {
        let (_, b) = families::bundle(seed);
        let number = usize::from(verify(&b).number);
        verdicts[number] += 1;
        if number > 0 {
            continue;
        }
        let bundle = Bundle::open_with_code(&b).expect("it is accepted");
        for ((_, count), (_, has)) in marks.iter_mut().zip(MARKS) {
            *count += usize::from(has(&bundle));
        }
    }
    assert!(verdicts.iter().all(|&count| count >= 50), "{verdicts:?}");
    assert!(marks.iter().all(|&(_, count)| count >= 50), "{marks:?}");
    let (_, branching) = marks[0];
    assert!(2 * branching >= verdicts[0], "{verdicts:?} {marks:?}");
}

#[test]
fn well_typed_bundles_are_accepted() {
    let accepted = (0..1_000)
        .filter(|&seed| verify(&typed::well_typed(&mut Rng::new(seed))).number == 0)
        .count();
    assert!(accepted >= 990, "{accepted}");
}

/// They are accepted, and one step in twenty waits at least.
#[test]
fn contending_threads_wait() {
    let (mut steps, mut waits) = (0, 0);
    for seed in 0..500 {
        let mut rng = Rng::new(seed);
        let b = contending::contending(&mut rng).lay_out();
        assert_eq!(verify(&b).number, 0, "seed {seed}");
        let scheduler = Scheduler::restless(seed);
        let run = Lively::follow(&mut rng, &b, fresh(&b).1, scheduler, 200);
        steps += run.answers.len();
        waits += run.answers.iter().filter(|&&a| a == answer::HELD).count();
    }
    assert!(20 * waits >= steps, "{waits} of {steps}");
}

/// They are accepted; for the orderly ones some levels do, for most others none.
#[test]
fn nesting_threads_hold_several_locks() {
    let (mut nested, mut circles) = (0, 0);
    for seed in 0..500 {
        let demands = |b: &[u8]| {
            assert_eq!(verify(b).number, 0, "seed {seed}");
            Demands::of(&Bundle::open_with_code(b).expect("it is accepted"))
        };
        let orderly = demands(&nesting::orderly(&mut Rng::new(seed)).lay_out());
        assert!(orderly.levels().is_some(), "seed {seed}");
        nested += usize::from(orderly.sites().next().is_some());
        let any = demands(&nesting::any(&mut Rng::new(seed)).lay_out());
        circles += usize::from(any.circle().is_some());
    }
    assert!(nested >= 250 && circles >= 250, "{nested} {circles}");
}

/// They are accepted, and threads take locks that others put into fields.
#[test]
fn sharing_threads_find_locks_in_fields() {
    let mut used = FieldUse::default();
    for seed in 0..500 {
        let mut rng = Rng::new(seed);
        let b = sharing::sharing(&mut rng).lay_out();
        assert_eq!(verify(&b).number, 0, "seed {seed}");
        let scheduler = Scheduler::restless(seed);
        let run = Lively::follow(&mut rng, &b, fresh(&b).1, scheduler, 200);
        used.add(&run.fields);
    }
    assert!(used.locked_across >= 500, "{used:?}");
    assert!(used.caught >= 500, "{used:?}");
}

#[test]
fn runs_read_and_write_fields() {
    let mut used = FieldUse::default();
    for seed in 0..1_000 {
        let mut rng = Rng::new(seed);
        let b = typed::well_typed(&mut rng);
        let scheduler = Scheduler::new(seed);
        let run = Lively::follow(&mut rng, &b, fresh(&b).1, scheduler, 100);
        used.add(&run.fields);
    }
    let FieldUse {
        read,
        written,
        locked,
        caught,
        uncaught,
        ..
    } = used;
    let often = [read, written, locked, caught, uncaught];
    assert!(often.iter().all(|&count| count >= 20), "{used:?}");
}

#[test]
fn every_temptation_works() {
    for slip in Slip::VERIFIER {
        let let_through = (0..1_000)
            .map(|seed| typed::tempting(&mut Rng::new(seed), slip))
            .filter(|b| verify(b).number == 9)
            .filter(|b| slip.verify(b).number == 0)
            .count();
        assert!(let_through >= 10, "{slip:?}: {let_through}");
    }
}

#[test]
fn runs_enter_handlers() {
    let (mut by_athrow, mut by_new) = (0, 0);
    for seed in 0..1_000 {
        let mut rng = Rng::new(seed);
        let b = typed::well_typed(&mut rng);
        let scheduler = Scheduler::new(seed);
        let run = Lively::follow(&mut rng, &b, fresh(&b).1, scheduler, 100);
        by_athrow += usize::from(run.caught_athrow);
        by_new += usize::from(run.caught_new);
    }
    assert!(by_athrow >= 200, "{by_athrow}");
    assert!(by_new >= 200, "{by_new}");
}

#[test]
fn valid_states_belong() {
    for seed in 0..2_000 {
        let (_, b) = families::bundle(seed);
        if let Ok(bundle) = Bundle::open_with_code(&b) {
            assert!(
                belongs(&bundle, &valid_state(&mut Rng::new(seed), &bundle)),
                "seed {seed}"
            );
        }
    }
}

#[test]
fn every_wrong_word_comes_up() {
    let mut marks = WORD_MARKS.map(|(name, _)| (name, 0));
    for seed in 0..5_000 {
        let mut rng = Rng::new(seed);
        let b = typed::well_typed(&mut rng);
        let bundle = Bundle::open_with_code(&b).expect("it is accepted");
        let state = damaged_state(&mut rng, &bundle);
        let Some(wrong) = WrongWord::alone(&bundle, &state) else {
            continue;
        };
        assert!(!belongs(&bundle, &state), "seed {seed}");
        for ((_, count), (_, has)) in marks.iter_mut().zip(WORD_MARKS) {
            *count += usize::from(has(&wrong));
        }
    }
    assert!(marks.iter().all(|&(_, count)| count >= 20), "{marks:?}");
}

#[test]
fn valid_states_hold_any_number_of_objects() {
    let mut numbers = [0; OBJECTS + 1];
    for seed in 0..5_000 {
        let mut rng = Rng::new(seed);
        let b = typed::well_typed(&mut rng);
        let bundle = Bundle::open_with_code(&b).expect("it is accepted");
        let state = valid_state(&mut rng, &bundle);
        (0..THREADS).for_each(|t| numbers[usize::from(state.number_held(t))] += 1);
    }
    let often = [0, 1, 2, 3, OBJECTS - 1, OBJECTS].map(|number| numbers[number]);
    assert!(often.iter().all(|&count| count >= 50), "{numbers:?}");
}

/// Kinds fit along every way: pairs are mostly found, and where not, it is for
/// the locks. Both come up often, with jumps back and with handlers.
#[test]
fn pairs_are_left_to_be_worked_out() {
    let (mut filled, mut none, mut back, mut handled) = (0, 0, 0, 0);
    for seed in 0..2_000 {
        let draft = unpaired::unpaired(&mut Rng::new(seed));
        match fill(&mut draft.lay_out()).number {
            0 => filled += 1,
            22 => none += 1,
            other => panic!("seed {seed}: {other}"),
        }
        let jumps = draft.methods.iter().flat_map(|method| {
            let code = (1..).zip(&method.code);
            code.filter_map(|(at, instr)| Some((at, *instr, instr.jump()?.0)))
        });
        for (at, instr, to) in jumps {
            back += usize::from(to <= at);
            handled += usize::from(!matches!(instr, Instr::If(_)));
        }
    }
    assert!(filled >= 500 && none >= 500, "{filled} {none}");
    assert!(back >= 2_000 && handled >= 2_000, "{back} {handled}");
}
