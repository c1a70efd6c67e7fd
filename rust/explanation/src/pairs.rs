//! Why pairs can't be worked out: records that share bytes (23), and what no
//! pairs mend (22).

use crate::words::{sentence, some, Place};
use crate::{explain, Explanation};
use hveitmar::{verify, Refusal, Verdict};
use listing::{byte, Program};
use reference::bundle::{Addr, Bundle};
use reference::demand::{demand, Demand, Side};
use reference::fill::nearest;
use reference::growth::{growth, Change, Growth};
use reference::shape::parts;
use reference::slips::AsWritten;
use std::ops::Range;

/// The byte with which an entry that has a pair begins, and a pair that is well
/// formed.
const REFERENCE: u8 = 3;
const SOME_PAIR: [u8; 2] = [0, 64];

/// Explains what was answered where pairs were to be filled in.
pub fn explain_filling(bytes: &[u8], refusal: Refusal) -> Explanation {
    match refusal {
        Refusal::Row { class, address } => explain(&aside(bytes, class, address), refusal),
        _ => explain(bytes, refusal),
    }
}

/// The bundle with pairs in this row that are well formed: what is wrong with it
/// is something else.
fn aside(bytes: &[u8], class: u8, address: u16) -> Vec<u8> {
    let method = Program::new(bytes).method(class);
    let (variables, depth) = (method.head.variables, method.row(address).stack().len());
    let variables = (0..variables).map(|v| method.head.variable(address, v));
    let stack = (0..depth).map(|i| method.head.stack_entry(address, i));
    let mut aside = bytes.to_vec();
    for at in variables
        .chain(stack)
        .filter(|&at| byte(bytes, at) == REFERENCE)
    {
        aside[at + 2..at + 4].copy_from_slice(&SOME_PAIR);
    }
    aside
}

pub fn shared(bytes: &[u8]) -> Explanation {
    let meetings = meetings(bytes);
    let first = meetings.first();
    let seen = first.map_or(vec![], |meeting| meeting.parts.to_vec());
    let others = match meetings.len().saturating_sub(1) {
        0 => None,
        others => Some(format!("So do {}.", some(others as i64, "other pair"))),
    };
    let found = first.map(|Meeting { parts, common }| {
        let count = some(common.len() as i64, "byte");
        let ([(one, _), (other, _)], at) = (parts, extent(common));
        format!("{} and {other} share {count}: {at}.", sentence(one))
    });
    Explanation {
        rule: "Pairs are written into the records, so no record may share a byte with another \
               or with the directory."
            .to_string(),
        seen,
        found: found.into_iter().chain(others).collect(),
        why: None,
    }
}

/// Two parts of the bundle, each with its name and its bytes, and what they share.
struct Meeting {
    parts: [(String, String); 2],
    common: Range<usize>,
}

fn meetings(bytes: &[u8]) -> Vec<Meeting> {
    let Ok(bundle) = Bundle::open(bytes) else {
        return vec![];
    };
    let parts = parts::<AsWritten>(bytes, &bundle);
    let name = |at: usize| match at < usize::from(bundle.count()) {
        true => format!("the record of class {at}"),
        false => "the directory".to_string(),
    };
    let mut meetings = vec![];
    for (at, one) in parts.iter().enumerate() {
        for (other_at, other) in parts.iter().enumerate().skip(at + 1) {
            let common = one.start.max(other.start)..one.end.min(other.end);
            if !common.is_empty() {
                meetings.push(Meeting {
                    parts: [(name(at), extent(one)), (name(other_at), extent(other))],
                    common,
                });
            }
        }
    }
    meetings
}

fn extent(part: &Range<usize>) -> String {
    match part.len() {
        1 => format!("byte {}", part.start),
        _ => format!("bytes {} to {}", part.start, part.end - 1),
    }
}

/// The first place at which the least pairs, stopped at their bounds, break a
/// rule; and a lock count that would grow without end, or else along which way a
/// pair is asked for that can't be had.
pub fn none(bytes: &[u8]) -> Explanation {
    let rule = "No pairs make the verifier accept. With the least that are asked for, none of \
                them above 63, this is the first rule that breaks.";
    let nearest = nearest(bytes);
    let broken = nearest.as_ref().and_then(|filled| match verify(filled) {
        Verdict::Refused(refusal) => Some(explain(filled, refusal)),
        Verdict::Accepted { .. } => None,
    });
    let grown = growth(bytes).map(|growth| grows(&growth));
    let grown = grown.or_else(|| demand(bytes).map(|demand| demands(&demand)));
    match broken {
        Some(broken) => Explanation {
            rule: format!("{rule} {}", broken.rule),
            found: broken.found.into_iter().chain(grown).collect(),
            why: None,
            ..broken
        },
        None => Explanation {
            rule: rule.to_string(),
            seen: vec![],
            found: grown.into_iter().collect(),
            why: None,
        },
    }
}

fn grows(growth: &Growth) -> String {
    let Growth {
        class,
        first,
        last,
        place,
        more,
        change,
    } = *growth;
    let place = Place::from(place);
    let (first, last) = (first.0, last.0);
    let times = match more {
        1 => "once".to_string(),
        2 => "twice".to_string(),
        more => format!("{more} times"),
    };
    let (done, undone) = match change {
        Change::Taken => ("takes", "gives it back"),
        Change::GivenBack => ("gives back", "takes it"),
    };
    format!(
        "Each turn of the loop {first} to {last} of class {class} {done} a lock {times} more than \
         it {undone}, and no number is large enough for that: it is the lock of {place} at \
         address {first}."
    )
}

fn demands(demand: &Demand) -> String {
    let Demand {
        class,
        place,
        side,
        wanted,
        at_most,
        way,
    } = demand;
    let side = match side {
        Side::Dip => "a dip",
        Side::End => "an end",
    };
    let place = sentence(&Place::from(*place).to_string());
    let addresses: Vec<u16> = way.iter().map(|(address, _)| address.0).collect();
    let at = addresses.first().copied().unwrap_or(0);
    let done = |done: Change| -> Vec<u16> {
        let there = way.iter().filter(|(_, change)| *change == Some(done));
        there.map(|&(Addr(address), _)| address).collect()
    };
    let changes = [
        ("taken", done(Change::Taken)),
        ("given back", done(Change::GivenBack)),
    ];
    let changes = changes.iter().filter(|(_, at)| !at.is_empty());
    let changes: Vec<String> = changes
        .map(|(what, at)| format!("{what} at {}", runs(at)))
        .collect();
    let lock = match changes.is_empty() {
        true => String::new(),
        false => format!(", on which the lock is {}", changes.join(" and ")),
    };
    format!(
        "{place} at address {at} of class {class} can have {side} of at most {at_most}, and \
         {wanted} is asked for along the way {}{lock}.",
        runs(&addresses)
    )
}

/// Addresses in their order: `3 to 5, 9`.
fn runs(addresses: &[u16]) -> String {
    let mut runs: Vec<(u16, u16)> = vec![];
    for &address in addresses {
        match runs.last_mut() {
            Some((_, last)) if *last == address => {}
            Some((_, last)) if *last + 1 == address => *last = address,
            _ => runs.push((address, address)),
        }
    }
    let runs: Vec<String> = runs
        .into_iter()
        .map(|(first, last)| match first == last {
            true => first.to_string(),
            false => format!("{first} to {last}"),
        })
        .collect();
    runs.join(", ")
}
