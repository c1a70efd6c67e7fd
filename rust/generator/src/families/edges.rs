//! Bundles at the edges of the limits, with shared or shifted records.

use super::typed;
use crate::builder::{lay_out, Draft, Layout, Method, Row};
use crate::rng::Rng;
use reference::bundle::{Addr, Field, Instr, Var, DIRECTORY_ENTRY, INT, MAX_LENGTH, TRAILER};
use reference::entries::Entry;

/// One bundle at some edge.
pub fn edge(rng: &mut Rng) -> Vec<u8> {
    match rng.below(30) {
        0 => lay_out(&[empty_method(0, 0, 1)]),
        1 => limits(rng),
        2 => shared(rng),
        3 => inner(rng),
        4 => directory_inside(rng),
        5 => shifted(rng),
        6 => whole_length(rng),
        7 => class_count(rng),
        8 => last_byte(rng),
        9 => deep_lock(rng),
        10 => broken_limit(rng),
        11 => exception_class(rng),
        12..=18 => throw_without_room(rng),
        19 | 20 => field_counts(rng),
        21 => field_operands(rng),
        22..=28 => fields_in_code(rng),
        _ => twice(rng),
    }
}

/// `length` times return, which needs neither variable nor stack.
fn empty_method(variables: usize, stack_limit: usize, length: usize) -> Method {
    let tops = vec![Entry::Top; variables];
    Method {
        variables,
        stack_limit,
        code: vec![Instr::Return; length],
        rows: vec![Row::new(&tops, &[]); length],
        ..Method::default()
    }
}

/// V, K and k each at one of their limits, or just past it.
fn limits(rng: &mut Rng) -> Vec<u8> {
    let variables = rng.pick(&[0, 1, 15, 16, 16, 17]);
    let stack_limit = rng.pick(&[0, 1, 15, 16, 16, 17]);
    let length = rng.pick(&[1, 2, 255, 256, 256, 257]);
    lay_out(&[empty_method(variables, stack_limit, length)])
}

/// Up to eight classes whose records are the same bytes.
fn shared(rng: &mut Rng) -> Vec<u8> {
    let method = empty_method(rng.below(4), rng.below(4), rng.between(1, 12));
    let mut layout = Layout::new();
    layout.pad(&rng_bytes(rng, 5));
    let offset = layout.place(&method);
    for _ in 0..rng.below(8) {
        layout.enter(&method, offset);
    }
    layout.finish()
}

fn rng_bytes(rng: &mut Rng, most: usize) -> Vec<u8> {
    let length = rng.below(most + 1);
    rng.bytes(length)
}

/// A second class whose record begins somewhere inside the first.
fn inner(rng: &mut Rng) -> Vec<u8> {
    let outer = empty_method(0, 0, rng.between(2, 40));
    let length = outer.code.len();
    let mut layout = Layout::new();
    layout.place(&outer);
    // At 4 * (length - 1) stands `return`, followed by zeros: a record of one.
    let offset = match rng.chance(1, 2) {
        true => 4 * (length - 1),
        false => rng.below(5 * length),
    };
    layout.enter(&empty_method(0, 0, 1), offset);
    layout.finish()
}

/// The directory shares bytes with a record.
fn directory_inside(rng: &mut Rng) -> Vec<u8> {
    let method = empty_method(0, 0, 1);
    let record = method.record().len();
    let mut layout = Layout::new();
    layout.pad(&rng_bytes(rng, 3));
    let offset = layout.place(&method);
    // The depth byte is zero, and so is the high byte of a low offset.
    let at = if rng.chance(2, 3) {
        offset + record - 1
    } else {
        offset + rng.below(record)
    };
    layout.finish_with_directory_at(at)
}

/// Odd offsets, gaps between records, and bytes before the directory.
fn shifted(rng: &mut Rng) -> Vec<u8> {
    let draft = typed::draft(rng, None);
    let mut layout = Layout::throwing(draft.exception);
    for method in &draft.methods {
        layout.pad(&rng_bytes(rng, 3));
        layout.place(method);
    }
    layout.pad(&rng_bytes(rng, 3));
    if layout.len() + 100 > MAX_LENGTH {
        return lay_out(&[empty_method(0, 0, 1)]);
    }
    layout.finish()
}

/// A whole length of 65,535, or just beside it.
fn whole_length(rng: &mut Rng) -> Vec<u8> {
    let method = empty_method(rng.below(17), rng.below(17), rng.between(1, 256));
    let wanted = rng.pick(&[MAX_LENGTH - 1, MAX_LENGTH, MAX_LENGTH, MAX_LENGTH + 1]);
    let record = method.record().len();
    let gap = wanted - record - DIRECTORY_ENTRY - TRAILER;
    let before = rng.pick(&[0, gap, gap / 2]);
    let mut layout = Layout::new();
    layout.pad(&rng.bytes(before));
    layout.place(&method);
    layout.pad(&rng.bytes(gap - before));
    layout.finish()
}

/// 0, 8 or 9 classes.
fn class_count(rng: &mut Rng) -> Vec<u8> {
    let method = empty_method(1, 1, 2);
    let mut layout = Layout::new();
    for _ in 0..rng.pick(&[0, 8, 9]) {
        layout.place(&method);
    }
    layout.finish()
}

/// The record or the directory ends at length - 8, or one byte past it.
fn last_byte(rng: &mut Rng) -> Vec<u8> {
    let method = empty_method(rng.below(3), rng.below(3), rng.between(1, 5));
    let record = method.record();
    let past = rng.below(2);
    if rng.chance(1, 2) {
        // Directory first, then the record.
        let mut layout = Layout::new();
        layout.pad(&[0; DIRECTORY_ENTRY]);
        layout.enter(&method, DIRECTORY_ENTRY + past);
        layout.pad(&record);
        return layout.finish_with_directory_at(0);
    }
    let mut layout = Layout::new();
    layout.place(&method);
    let mut out = layout.finish();
    let at = out.len() - TRAILER + 1;
    out[at] = out[at].wrapping_add(past as u8);
    out
}

/// A lock taken up to 63 times and given back as often, or one time off.
fn deep_lock(rng: &mut Rng) -> Vec<u8> {
    let times = rng.between(60, 63) as i16;
    let off = rng.pick(&[0, 0, 0, 1]);
    let v = Var(0);
    let at = |level: i16| Row::new(&[Entry::reference(0, level, -level)], &[]);
    let mut code = vec![Instr::New(0, None), Instr::Store(v)];
    let mut rows = vec![
        Row::new(&[Entry::Top], &[]),
        Row::new(&[Entry::Top], &[Entry::fresh(0)]),
    ];
    for level in 0..times {
        code.push(Instr::Enter(v, None));
        rows.push(at(level));
    }
    for level in (1..=times - off).rev() {
        code.push(Instr::Exit(v));
        rows.push(at(level + off));
    }
    code.push(Instr::Return);
    rows.push(at(off));
    lay_out(&[Method {
        variables: 1,
        stack_limit: 1,
        code,
        rows,
        ..Method::default()
    }])
}

/// One directory limit passed, or main with an argument.
fn broken_limit(rng: &mut Rng) -> Vec<u8> {
    let mut b = lay_out(&[empty_method(2, 2, 3), empty_method(2, 2, 3)]);
    let class = rng.below(2);
    let entry = b.len() - TRAILER - DIRECTORY_ENTRY * (2 - class);
    let (field, value) = rng.pick(&[(2, 1), (2, 3), (3, 17), (4, 17), (5, 5), (6, 2), (7, 0)]);
    b[entry + field] = value;
    b
}

/// The exception class is the last one, or one that the bundle hasn't.
fn exception_class(rng: &mut Rng) -> Vec<u8> {
    let count = rng.between(1, 8);
    let draft = Draft {
        methods: vec![empty_method(rng.below(3), rng.below(3), 2); count],
        exception: rng.pick(&[count as u8 - 1, count as u8 - 1, count as u8, 8, 255]),
    };
    draft.lay_out()
}

/// new, or monitorenter on what may be null, where the stack has no place,
/// with a handler or none: only the handler would need one.
fn throw_without_room(rng: &mut Rng) -> Vec<u8> {
    let mut method = empty_method(rng.between(1, 3), 0, 3);
    let handler = rng.chance(1, 2).then(|| Addr(rng.between(1, 3) as u16));
    method.code[0] = rng.pick(&[Instr::New(0, handler), Instr::Enter(Var(0), handler)]);
    lay_out(&[method])
}

/// No field, as many as there may be, or one more; integers, references, or
/// what is neither.
fn field_counts(rng: &mut Rng) -> Vec<u8> {
    let count = rng.between(1, 3);
    let methods: Vec<Method> = (0..count)
        .map(|_| {
            let fields = rng.pick(&[0, 1, 3, 4, 4, 4, 5]);
            let wrong = if rng.chance(1, 8) { 2 } else { 0 };
            let descriptor = |rng: &mut Rng| match rng.below(3) {
                0 => INT,
                _ => rng.below(count + wrong) as u8,
            };
            Method {
                fields: (0..fields).map(|_| descriptor(rng)).collect(),
                ..empty_method(rng.below(3), rng.below(3), rng.between(1, 3))
            }
        })
        .collect();
    lay_out(&methods)
}

/// A field's instruction with any operand near those that name a field.
fn field_operands(rng: &mut Rng) -> Vec<u8> {
    let count = rng.pick(&[1, 2, 8]);
    let mut methods: Vec<Method> = (0..count)
        .map(|_| Method {
            fields: vec![INT; rng.between(0, 4)],
            ..empty_method(1, 2, 2)
        })
        .collect();
    let field = Field {
        class: rng.below(count + 1) as u8,
        number: rng.below(4) as u8,
    };
    let class = rng.below(count);
    let access = rng.pick(&[Instr::Getfield, Instr::Putfield]);
    methods[class].code[rng.pick(&[0, 0, 0, 1])] = access(field, None);
    lay_out(&methods)
}

/// A second class whose fields are described by the first one's code: three
/// zeros in front of its last instruction.
fn fields_in_code(rng: &mut Rng) -> Vec<u8> {
    let outer = empty_method(0, 0, rng.between(2, 40));
    let mut layout = Layout::new();
    layout.place(&outer);
    let inner = Method {
        fields: vec![0; rng.between(1, 4)],
        ..empty_method(0, 0, 1)
    };
    layout.enter(&inner, 4 * (outer.code.len() - 1) - inner.fields.len());
    layout.finish()
}

/// One well-typed bundle's record entered once more as a further class.
fn twice(rng: &mut Rng) -> Vec<u8> {
    let Draft { methods, exception } = typed::draft(rng, None);
    let mut layout = Layout::throwing(exception);
    let offsets: Vec<usize> = methods.iter().map(|method| layout.place(method)).collect();
    for _ in methods.len()..8 {
        let class = rng.below(methods.len());
        layout.enter(&methods[class], offsets[class]);
    }
    if layout.len() + 100 > MAX_LENGTH {
        return lay_out(&methods[..1]);
    }
    layout.finish()
}
