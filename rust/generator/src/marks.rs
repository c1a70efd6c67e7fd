//! What makes an accepted bundle worth having: each mark is counted, so that
//! none goes missing.

use crate::families::flow;
use crate::families::interface::FEW_ARGUMENTS;
use reference::bundle::{Addr, Bundle, Class, Instr, INT};
use reference::entries::{Entry, Raw};
use reference::instructions::MAX_FIELDS;

/// What is marked, and whether a bundle with well-formed rows has it.
pub type Mark = (&'static str, fn(&Bundle) -> bool);

pub const MARKS: [Mark; 14] = [
    ("a branch between lock and release", |bundle| {
        any(bundle, flow::branches_under_lock)
    }),
    ("a pair other than (m,-m)", |bundle| {
        any(bundle, |class| addresses(class).any(|a| uneven(class, a)))
    }),
    ("such a pair in code that is reached", |bundle| {
        any(bundle, |class| {
            flow::reached(class).into_iter().any(|a| uneven(class, a))
        })
    }),
    ("a row 1 that claims less than is known", |bundle| {
        any(bundle, claims_less)
    }),
    ("more than three arguments", |bundle| {
        any(bundle, |class| class.arguments.len() > FEW_ARGUMENTS)
    }),
    ("records that share some of their bytes", overlap_in_part),
    ("fields of integers", |bundle| {
        any(bundle, |class| class.fields.contains(&INT))
    }),
    ("fields of references", |bundle| {
        any(bundle, |class| class.fields.iter().any(|&d| d != INT))
    }),
    ("as many fields as a class may have", |bundle| {
        any(bundle, |class| class.fields.len() == MAX_FIELDS)
    }),
    (
        "fields that are described by another's code",
        fields_in_code,
    ),
    ("a row 1 that doubts an argument", |bundle| {
        any(bundle, |class| {
            class.row(Addr(1)).variables.iter().any(|&raw| doubts(raw))
        })
    }),
    ("a lock that may be null, with a handler", |bundle| {
        any(bundle, |class| locks_doubted(class, true))
    }),
    ("a lock that may be null, without one", |bundle| {
        any(bundle, |class| locks_doubted(class, false))
    }),
    ("a field of an owner that may be null", |bundle| {
        any(bundle, owner_doubted)
    }),
];

fn any(bundle: &Bundle, has: impl Fn(&Class) -> bool) -> bool {
    bundle.classes().any(|(_, class)| has(class))
}

fn addresses(class: &Class) -> impl Iterator<Item = Addr> {
    (1..=class.code_length()).map(Addr)
}

/// Whether the row there has a pair other than (m,-m).
fn uneven(class: &Class, address: Addr) -> bool {
    let row = class.row(address);
    row.variables
        .iter()
        .chain(row.stack)
        .any(|&raw| matches!(Entry::read(raw), Entry::Ref { pair, .. } if pair.dip != -pair.end))
}

/// Whether some argument's entry in row 1 isn't the argument itself.
fn claims_less(class: &Class) -> bool {
    let exact = |(&descriptor, &raw): (&u8, &Raw)| match descriptor {
        INT => Entry::read(raw) == Entry::Int,
        class => Entry::read(raw) == Entry::fresh(class),
    };
    let claimed = class.row(Addr(1)).variables;
    !class.arguments.iter().zip(claimed).all(exact)
}

fn doubts(raw: Raw) -> bool {
    matches!(Entry::read(raw), Entry::Nullable { .. })
}

/// Whether a monitorenter names what may be null, with a handler or none.
fn locks_doubted(class: &Class, handled: bool) -> bool {
    addresses(class).any(|address| match class.instruction(address) {
        Instr::Enter(v, handler) if handler.is_some() == handled => {
            doubts(class.row(address).variables[usize::from(v.0)])
        }
        _ => false,
    })
}

/// Whether a getfield or putfield has an owner that may be null.
fn owner_doubted(class: &Class) -> bool {
    addresses(class).any(|address| {
        let stack = class.row(address).stack;
        match class.instruction(address) {
            Instr::Getfield(..) => doubts(stack[0]),
            Instr::Putfield(..) => doubts(stack[1]),
            _ => false,
        }
    })
}

/// Whether the descriptors of a class's fields stand in another's code.
fn fields_in_code(bundle: &Bundle) -> bool {
    bundle.classes().any(|(number, class)| {
        let begin = class.offset + class.arguments.len();
        let end = begin + class.fields.len();
        bundle.classes().any(|(other, outer)| {
            let code = outer.offset + outer.arguments.len() + outer.fields.len();
            let code_end = code + 4 * usize::from(outer.code_length());
            number != other && begin < end && code <= begin && end <= code_end
        })
    })
}

/// Whether two records have bytes in common, and each has some of its own.
fn overlap_in_part(bundle: &Bundle) -> bool {
    let bounds = |class: &Class| (class.offset, class.offset + class.record.len());
    bundle.classes().any(|(_, one)| {
        let (begin, end) = bounds(one);
        any(bundle, |other| {
            let (other_begin, other_end) = bounds(other);
            begin < other_begin && other_begin < end && end < other_end
        })
    })
}
