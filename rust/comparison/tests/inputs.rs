//! The generated inputs are worth comparing on: their refusals and the
//! benchmark's bundles.

use comparison::digest;
use comparison::whys::Whys;
use generator::families::{self, sized};
use reference::machine::{fresh, step};
use reference::run::run;
use reference::verify::verify;

#[test]
fn every_rule_fails_for_every_reason() {
    let mut whys = Whys::default();
    for seed in 0..10_000 {
        let (_, b) = families::bundle(seed);
        whys.add(&b, verify(&b));
    }
    for (name, counts) in whys.rows() {
        let often = counts.iter().flatten().all(|&count| count >= 10);
        assert!(often, "{name}: {counts:?}");
    }
    assert_eq!(whys.impossible(), 0);
}

/// The benchmark's bundles are what their names say.
#[test]
fn endless_threads_never_end() {
    for threads in [1, 8] {
        let b = sized::endless(threads, 6);
        assert_eq!(verify(&b).number, 0);
        assert_eq!(digest::of_run(&b, &sized::turns(threads, 1_000)), 0);
    }
}

/// Threads that want one lock wait in more than half of their steps.
#[test]
fn wanting_threads_wait() {
    let (b, list) = (sized::wanting(8, 6), sized::wanting_turns(8, 1_000));
    assert_eq!(verify(&b).number, 0);
    let ran = run(&b, &list);
    assert!(ran.state.threads.iter().all(|thread| thread.live));
    assert!((200..500).contains(&ran.number), "{}", ran.number);
    let mut state = fresh(&b).1;
    let answers = list.iter().map(|&t| step(&b, &mut state, t, false));
    assert!(answers.into_iter().all(|given| given == 0 || given == 3));
}
