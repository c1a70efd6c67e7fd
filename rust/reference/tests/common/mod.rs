//! What the tests by hand share.

use reference::bundle::Verdict;
use reference::machine::{fresh, step, State};
use reference::verify::verify;

pub fn judge(bytes: &[u8]) -> Verdict {
    verify(bytes)
}

/// One step of thread 0.
pub fn run(bytes: &[u8], state: &State, fails: bool) -> (u8, State) {
    let mut next = state.clone();
    (step(bytes, &mut next, 0, fails), next)
}

/// So many steps of thread 0 from the fresh machine: their answers, and the
/// state at the end.
pub fn run_through(bytes: &[u8], steps: usize) -> (Vec<u8>, State) {
    let (_, mut state) = fresh(bytes);
    let mut answers = vec![];
    for _ in 0..steps {
        let (answer, next) = run(bytes, &state, false);
        answers.push(answer);
        state = next;
    }
    (answers, state)
}
