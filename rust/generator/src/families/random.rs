//! Random bytes, and bundles whose structure holds but whose rows are random.

use super::interface;
use crate::builder::{seal, Draft, Method, Row};
use crate::rng::Rng;
use reference::bundle::{Addr, Field, Instr, Var, INT};
use reference::entries::Entry;

/// Any bytes of any length: mostly short, at times past the limit; at times
/// with a right trailer behind them.
pub fn bytes(rng: &mut Rng) -> Vec<u8> {
    let length = match rng.below(40) {
        0 => rng.between(65_500, 65_560),
        1 => rng.below(65_536),
        2..=12 => rng.below(12),
        _ => rng.below(400),
    };
    let body = rng.bytes(length);
    if rng.chance(1, 4) && (8..60_000).contains(&length) {
        let (directory, count) = (rng.below(length + 2), rng.below(10));
        return seal(body, directory, count, rng.below(10) as u8);
    }
    body
}

/// Draws none of the verdicts 1 to 8; instructions and rows are random.
pub fn structured(rng: &mut Rng) -> Draft {
    let most = if rng.chance(1, 10) { 8 } else { 3 };
    let classes = rng.between(1, most);
    let fields: Vec<Vec<u8>> = (0..classes)
        .map(|_| interface::fields(rng, classes))
        .collect();
    Draft {
        methods: (0..classes)
            .map(|class| method(rng, class, &fields))
            .collect(),
        exception: rng.below(classes) as u8,
    }
}

/// What instructions may name beside variables and addresses: a bundle's
/// classes and their fields.
#[derive(Clone, Debug)]
pub struct Names {
    pub classes: usize,
    pub fields: Vec<Field>,
}

impl Names {
    /// Of classes with so many fields each.
    pub fn new(counts: impl Iterator<Item = usize>) -> Names {
        let counts: Vec<usize> = counts.collect();
        let mut fields = vec![];
        for (class, &count) in (0..).zip(&counts) {
            fields.extend((0..count as u8).map(|number| Field { class, number }));
        }
        Names {
            classes: counts.len(),
            fields,
        }
    }
}

fn method(rng: &mut Rng, class: usize, fields: &[Vec<u8>]) -> Method {
    let classes = fields.len();
    let names = Names::new(fields.iter().map(Vec::len));
    let variables = small(rng);
    let stack_limit = small(rng);
    let n = if class == 0 {
        0
    } else {
        rng.below(variables.min(4) + 1)
    };
    let arguments: Vec<u8> = (0..n).map(|_| descriptor(rng, classes)).collect();
    let length = if rng.chance(1, 60) {
        rng.between(200, 256)
    } else {
        rng.between(1, 10)
    };
    let code = (1..=length)
        .map(|at| instruction(rng, variables, &names, at, length))
        .collect();
    let mut rows: Vec<Row> = (0..length)
        .map(|_| row(rng, variables, stack_limit, classes))
        .collect();
    if rng.chance(3, 4) {
        rows[0] = first_row(&arguments, variables);
    }
    Method {
        arguments,
        fields: fields[class].clone(),
        variables,
        stack_limit,
        code,
        rows,
    }
}

fn small(rng: &mut Rng) -> usize {
    match rng.below(16) {
        0 => 16,
        1 => 0,
        _ => rng.below(5),
    }
}

fn descriptor(rng: &mut Rng, classes: usize) -> u8 {
    match rng.chance(1, 2) {
        true => INT,
        false => rng.below(classes) as u8,
    }
}

/// Row 1 of a method with these arguments.
pub fn first_row(arguments: &[u8], variables: usize) -> Row {
    let mut entries: Vec<Entry> = arguments
        .iter()
        .map(|&d| {
            if d == INT {
                Entry::Int
            } else {
                Entry::fresh(d)
            }
        })
        .collect();
    entries.resize(variables, Entry::Top);
    Row::new(&entries, &[])
}

fn row(rng: &mut Rng, variables: usize, stack_limit: usize, classes: usize) -> Row {
    let depth = rng.below(stack_limit + 1).min(rng.below(3));
    let mut some =
        |count: usize| -> Vec<Entry> { (0..count).map(|_| entry(rng, classes)).collect() };
    Row {
        variables: some(variables),
        stack: some(depth),
    }
}

/// A well-formed entry, its pair mostly near (0,0).
pub fn entry(rng: &mut Rng, classes: usize) -> Entry {
    let class = rng.below(classes) as u8;
    match rng.below(9) {
        0 | 1 => Entry::Int,
        2 | 3 => Entry::Top,
        8 => Entry::Nullable { class },
        4 => Entry::reference(class, rng.between(0, 63) as i16, rng.below(127) as i16 - 63),
        5 => Entry::fresh(class),
        _ => Entry::reference(class, rng.below(3) as i16, rng.below(4) as i16 - 2),
    }
}

/// An instruction that keeps to the table at address `at` of `length`.
pub fn instruction(
    rng: &mut Rng,
    variables: usize,
    names: &Names,
    at: usize,
    length: usize,
) -> Instr {
    let target = Addr(rng.between(1, length) as u16);
    let handler = rng.chance(1, 2).then_some(target);
    if at == length {
        return if rng.chance(1, 2) {
            Instr::Return
        } else {
            Instr::Athrow(handler)
        };
    }
    if !names.fields.is_empty() && rng.chance(1, 6) {
        let field = rng.pick(&names.fields);
        let access = rng.pick(&[Instr::Getfield, Instr::Putfield]);
        return access(field, handler);
    }
    let class = rng.below(names.classes) as u8;
    let with_variable = if variables > 0 { 4 } else { 0 };
    let v = Var(rng.below(variables.max(1)) as u8);
    match rng.below(8 + with_variable) {
        0 => Instr::Inc,
        1 => Instr::Pop,
        2 => Instr::Push0,
        3 => Instr::If(target),
        4 => Instr::New(class, handler),
        5 => Instr::Start(class),
        6 => Instr::Athrow(handler),
        7 => Instr::Return,
        8 => Instr::Load(v),
        9 => Instr::Store(v),
        10 => Instr::Enter(v, handler),
        _ => Instr::Exit(v),
    }
}
