//! The proved code's answers in the references' numbers, to be held equal.

use reference::bundle::Verdict;
use reference::entries::Raw;
use reference::gate::{Gated, Parts};
use reference::take;
use usages::Answer;

pub use hveitmar::{answers, digest, record, STATE_BYTES};

/// The proved verifier's verdict.
pub fn verdict(bundle: &[u8]) -> Verdict {
    numbered(hveitmar::verify(bundle))
}

/// Its verdict under the profile of a list of levels.
pub fn ordered(bundle: &[u8], levels: &[u8]) -> Verdict {
    numbered(hveitmar::verify_ordered(bundle, levels))
}

fn numbered(verdict: hveitmar::Verdict) -> Verdict {
    match verdict {
        hveitmar::Verdict::Accepted { classes } => Verdict::new(0, classes, 0),
        hveitmar::Verdict::Refused(refusal) => refused(refusal),
    }
}

fn refused(refusal: hveitmar::Refusal) -> Verdict {
    let why = refusal.why().map_or(0, hveitmar::Why::number);
    Verdict::new(refusal.number(), refusal.class(), refusal.address()).because(why)
}

/// What the proved call that fills pairs in answers.
pub fn fill(bundle: &mut [u8]) -> Verdict {
    match hveitmar::fill(bundle) {
        Ok(classes) => Verdict::new(0, classes, 0),
        Err(refusal) => refused(refusal),
    }
}

/// What the proved gate answers.
pub fn gate(parts: &Parts, out: &mut [u8]) -> Gated {
    match weaver::gate(&lent(parts), out) {
        Ok(weaver::Written { classes, length }) => Gated {
            verdict: Verdict::new(0, classes, 0),
            length,
        },
        Err(refusal) => Gated {
            verdict: Verdict::new(refusal.number(), refusal.class(), refusal.address()),
            length: 0,
        },
    }
}

/// What is handed over, in the types of the proved side.
pub fn lent<'a>(parts: &Parts<'a>) -> weaver::Parts<'a> {
    weaver::Parts {
        classes: parts.classes,
        exception: parts.exception,
        directory: parts.directory,
        descriptors: parts.descriptors,
        instructions: parts.instructions,
        kinds: parts.kinds,
        depths: parts.depths,
    }
}

/// What a list comes to by the proved call: the number of steps, or the verdict
/// with which the bundle is refused; and the state's bytes.
pub fn run(bundle: &[u8], list: &[u8]) -> (Result<u64, Verdict>, [u8; STATE_BYTES]) {
    let ran = hveitmar::run(bundle, list);
    (ran.steps.map_err(refused), ran.state)
}

/// How many objects a thread holds, by the proved machine: its answer and the
/// number. None where the bytes are no state.
pub fn held(bundle: &[u8], state: &[u8], thread: u8) -> Option<(u8, u8)> {
    match hveitmar::held(bundle, state, thread) {
        hveitmar::Held::Objects(number) => Some((0, number)),
        hveitmar::Held::Refused(answer) => Some((answer.number(), 0)),
        hveitmar::Held::NoState => None,
    }
}

/// What a step of the thread would meet after the schedule, by the proved
/// machine: the instruction's four bytes, and the object.
pub fn meets(bundle: &[u8], schedule: &[u8], thread: u8) -> Option<(Raw, Option<u8>)> {
    let met = hveitmar::meets(bundle, schedule, thread)?;
    let [high, low] = met.address.to_be_bytes();
    Some(([met.opcode, met.operand, high, low], met.object))
}

/// The proved reader's answer.
pub fn usage(text: &[u8]) -> Answer {
    match hveitmar::usage(text) {
        Ok(hveitmar::Usage { dip, end, reliable }) => Answer {
            number: 0,
            dip: i32::from(dip),
            end: i32::from(end),
            reliable,
        },
        Err(refusal) => Answer::refused(refusal.number()),
    }
}

/// What the proved call says of a method, and writes.
pub fn take(attribute: &[u8], classes: &[u16], out: &mut [u8]) -> take::Answer {
    match hveitmar::take(attribute, classes, out) {
        Ok(count) => take::Answer {
            number: 0,
            value: count as u32,
        },
        Err(refusal) => take::Answer {
            number: refusal.number(),
            value: refusal.offset(),
        },
    }
}
