//! Which instructions may throw, where to, and which references are known not to be null.

use crate::instruction::{op, Instruction};
use crate::value::{member_effect, Name, Values};
use crate::{Catch, Loaded, Method, Obstacle, Throws};
use std::collections::BTreeSet;

/// Where a throw goes.
#[derive(Clone, Copy, Debug, PartialEq, Eq)]
pub enum Thrown {
    To(usize),
    Uncaught,
}

/// Array accesses, integer division, fields, calls, allocations, `arraylength`, `athrow`, casts, and constants that are resolved on first use.
fn may_throw(method: &Method, i: &Instruction, throws: &Throws) -> bool {
    if throws.strict {
        return true;
    }
    match i.op {
        op::LDC | op::LDC_W => {
            matches!(
                method.pool.loaded(i.operand),
                Some(Loaded::Class(_) | Loaded::Resolved)
            )
        }
        op::INVOKEVIRTUAL..=op::INVOKEDYNAMIC => !is_quiet(method, i, throws),
        46..=53 | 79..=86 | 108 | 109 | 112 | 113 => true,
        op::GETSTATIC..=op::PUTFIELD | op::NEW..=op::INSTANCEOF | op::MULTIANEWARRAY => true,
        _ => false,
    }
}

fn is_quiet(method: &Method, i: &Instruction, throws: &Throws) -> bool {
    !throws.quiet.is_empty()
        && method.pool.member(i.operand).is_some_and(|m| {
            throws
                .quiet
                .contains(&format!("{}.{} {}", m.owner, m.name, m.descriptor))
        })
}

/// Every handler that may get what the instruction throws, in the table's order up to the first that catches everything. A `monitorenter` throws only where its
/// operand may be null, and then a `NullPointerException`.
pub fn targets(method: &Method, i: &Instruction, not_null: bool, throws: &Throws) -> Vec<Thrown> {
    if i.op == op::MONITORENTER && !throws.strict {
        if not_null {
            return Vec::new();
        }
        let first = i.handlers.iter().find(|(_, catch)| *catch != Catch::Other);
        return vec![first.map_or(Thrown::Uncaught, |&(h, _)| Thrown::To(h))];
    }
    if !may_throw(method, i, throws) {
        return Vec::new();
    }
    let mut out = Vec::new();
    for &(h, catch) in &i.handlers {
        if !out.contains(&Thrown::To(h)) {
            out.push(Thrown::To(h));
        }
        if catch == Catch::All {
            return out;
        }
    }
    out.push(Thrown::Uncaught);
    out
}

/// The reference that the instruction meets, so that it is not null afterwards.
fn meets(
    method: &Method,
    values: &Values,
    all: &[Instruction],
    k: usize,
) -> Result<Option<Name>, Obstacle> {
    let Some(before) = &values.before[k] else {
        return Ok(None);
    };
    let under = match all[k].op {
        op::MONITORENTER | op::MONITOREXIT | op::GETFIELD | op::ARRAYLENGTH => 0,
        op::PUTFIELD | op::INVOKEVIRTUAL | op::INVOKESPECIAL | op::INVOKEINTERFACE => {
            member_effect(method, &all[k])?.0 - 1
        }
        _ => return Ok(None),
    };
    Ok(before.under(under).flatten())
}

fn is_named_by(x: Name, at: u32) -> bool {
    matches!(x, Name::Made(from) | Name::Stale(from, _) if from == at)
}

/// Before each instruction the references that a lock, a field or a call met on every way there. What is made anew is forgotten.
pub fn met_before(
    method: &Method,
    all: &[Instruction],
    values: &Values,
    throws: &Throws,
) -> Result<Vec<BTreeSet<Name>>, Obstacle> {
    let reached = |k: &usize| values.before[*k].is_some();
    let thrown = |k: usize| {
        let operand = values.before[k].as_ref().and_then(|p| p.under(0).flatten());
        let sure = operand.is_some_and(|v| values.is_made(method, v));
        targets(method, &all[k], sure, throws)
            .into_iter()
            .filter_map(|t| match t {
                Thrown::To(h) => Some(h),
                Thrown::Uncaught => None,
            })
    };
    let mut heads = vec![0; all.len()];
    for k in (0..all.len()).filter(reached) {
        for to in all[k].successors().into_iter().chain(thrown(k)) {
            heads[to] += 1;
        }
    }
    let mut facts: Vec<Option<BTreeSet<Name>>> = vec![None; all.len()];
    facts[0] = Some(BTreeSet::new());
    let mut work = vec![0];
    while let Some(k) = work.pop() {
        let before = facts[k].clone().unwrap_or_default();
        let mut after = before.clone();
        after.extend(meets(method, values, all, k)?);
        after.retain(|&x| !is_named_by(x, all[k].at));
        let onward: Vec<usize> = all[k].successors();
        for (to, fact) in thrown(k)
            .map(|h| (h, &before))
            .chain(onward.iter().map(|&t| (t, &after)))
        {
            let at = all[to].at;
            let anew =
                |x: &Name| matches!(*x, Name::Join(from, _) | Name::Caught(from) if from == at);
            let brought: BTreeSet<Name> = fact
                .iter()
                .copied()
                .filter(|x| heads[to] <= 1 || !anew(x))
                .collect();
            let kept = match &facts[to] {
                None => brought,
                Some(old) => old.intersection(&brought).copied().collect(),
            };
            if facts[to].as_ref() != Some(&kept) {
                facts[to] = Some(kept);
                work.push(to);
            }
        }
    }
    Ok(facts.into_iter().map(Option::unwrap_or_default).collect())
}

#[cfg(test)]
mod tests {
    use super::*;
    use crate::instruction::decoded;
    use crate::tests::covered;
    use crate::value::values;
    use crate::Range;

    fn thrown(
        code: &[u8],
        handlers: &[Range],
        at: u32,
        not_null: bool,
        throws: &Throws,
    ) -> Vec<Thrown> {
        let m = covered(code, handlers);
        let all = decoded(&m).unwrap();
        let i = all.iter().find(|i| i.at == at).unwrap();
        targets(&m, i, not_null, throws)
    }

    fn range(catch: Catch) -> Range {
        Range {
            start: 0,
            end: 5,
            handler: 5,
            catch,
        }
    }

    // aload_0; invokevirtual f; return; (handler) athrow
    const CALL: [u8; 6] = [0x2a, 0xb6, 0, 3, 0xb1, 0xbf];

    #[test]
    fn a_call_may_throw_to_each_handler_up_to_the_first_that_catches_all() {
        let usual = Throws::default();
        assert_eq!(thrown(&CALL, &[], 1, false, &usual), [Thrown::Uncaught]);
        assert_eq!(
            thrown(&CALL, &[range(Catch::All)], 1, false, &usual),
            [Thrown::To(3)]
        );
        assert_eq!(
            thrown(&CALL, &[range(Catch::Other)], 1, false, &usual),
            [Thrown::To(3), Thrown::Uncaught]
        );
        assert_eq!(thrown(&CALL, &[], 0, false, &usual), []);
    }

    #[test]
    fn strict_and_quiet() {
        let strict = Throws {
            strict: true,
            ..Throws::default()
        };
        assert_eq!(thrown(&CALL, &[], 0, false, &strict), [Thrown::Uncaught]);
        let quiet = Throws {
            quiet: ["A.f ()V".to_owned()].into(),
            ..Throws::default()
        };
        assert_eq!(thrown(&CALL, &[], 1, false, &quiet), []);
    }

    // aload_1; monitorenter; aload_1; monitorexit; return; (handler) athrow
    const LOCK: [u8; 6] = [0x2b, 0xc2, 0x2b, 0xc3, 0xb1, 0xbf];

    #[test]
    fn a_lock_throws_only_of_null() {
        let usual = Throws::default();
        assert_eq!(
            thrown(&LOCK, &[range(Catch::Other)], 1, false, &usual),
            [Thrown::Uncaught]
        );
        assert_eq!(
            thrown(&LOCK, &[range(Catch::NullPointer)], 1, false, &usual),
            [Thrown::To(5)]
        );
        assert_eq!(thrown(&LOCK, &[range(Catch::All)], 1, true, &usual), []);
        assert_eq!(thrown(&LOCK, &[range(Catch::All)], 3, false, &usual), []);
    }

    #[test]
    fn what_was_locked_is_not_null() {
        let m = covered(&LOCK, &[]);
        let all = decoded(&m).unwrap();
        let v = values(&m, &all, &Throws::default()).unwrap();
        let facts = met_before(&m, &all, &v, &Throws::default()).unwrap();
        assert!(facts[1].is_empty());
        assert!(facts[2].contains(&Name::Argument(1)));
    }
}
