//! Pairs worked out, by hand: what is least, what no pairs mend, and what draws
//! another refusal first.

use generator::builder::{case_a, lay_out, Draft, Layout, Method, Row};
use reference::bundle::{Addr, Field, Instr, Var, Verdict};
use reference::entries::{Entry, Raw};
use reference::fill::fill;
use reference::verify::verify;

const V: Var = Var(0);
const W: Var = Var(1);
const NONE: Verdict = Verdict::new(22, 0, 0);
const SHARED: Verdict = Verdict::new(23, 0, 0);

/// An instruction, with its variables and its stack from the top.
type Line<'a> = (Instr, &'a [Entry], &'a [Entry]);

fn method(variables: usize, stack_limit: usize, lines: &[Line]) -> Method {
    Method {
        variables,
        stack_limit,
        code: lines.iter().map(|line| line.0).collect(),
        rows: lines.iter().map(|line| Row::new(line.1, line.2)).collect(),
        ..Method::default()
    }
}

fn pair(dip: i16, end: i16) -> Entry {
    Entry::reference(0, dip, end)
}

/// The method with all of its pairs made (63,63).
fn high(method: &Method) -> Method {
    let mut high = method.clone();
    for row in &mut high.rows {
        for entry in row.variables.iter_mut().chain(&mut row.stack) {
            if let Entry::Ref { class, .. } = *entry {
                *entry = Entry::reference(class, 63, 63);
            }
        }
    }
    high
}

/// The pairs of this method are those that are worked out; it is accepted.
fn comes_back(method: &Method) {
    let wanted = lay_out(&[method.clone()]);
    assert_eq!(verify(&wanted), Verdict::new(0, 1, 0));
    let mut filled = lay_out(&[high(method)]);
    assert_eq!(fill(&mut filled), Verdict::new(0, 1, 0));
    assert_eq!(filled, wanted);
}

/// This is refused, and stays as it is.
fn stays(bundle: &[u8], refusal: Verdict) {
    let mut lent = bundle.to_vec();
    assert_eq!(fill(&mut lent), refusal);
    assert_eq!(lent, bundle);
}

fn has_none(method: &Method) {
    stays(&lay_out(&[high(method)]), NONE);
}

#[test]
fn case_a_gets_the_document_s_pairs() {
    comes_back(&case_a());
}

/// In B the lock is still held at 9; C's row 9 says so, and nothing gives it
/// back.
#[test]
fn no_pairs_make_b_or_c_accepted() {
    let mut b = case_a();
    b.code[4] = Instr::If(Addr(9));
    has_none(&b);
}

/// Whatever the pair bytes are that come in: 255 is no dip, 0 is no end.
#[test]
fn pair_bytes_are_ignored_as_they_come_in() {
    let wanted = lay_out(&[case_a()]);
    // Rows of nine bytes behind nine instructions; variable 0 from row 3 on.
    for bytes in [[0, 0], [255, 0], [64, 128], [0, 64], [255, 255]] {
        let mut b = wanted.clone();
        for row in 2..9 {
            b[36 + 9 * row + 2..36 + 9 * row + 4].copy_from_slice(&bytes);
        }
        assert_eq!(fill(&mut b), Verdict::new(0, 1, 0));
        assert_eq!(b, wanted);
    }
}

/// So many locks of one object, one in the other.
fn nested(depth: i16) -> Method {
    let mut lines = vec![
        (Instr::New(0, None), Entry::Top, vec![]),
        (Instr::Store(V), Entry::Top, vec![pair(0, 0)]),
    ];
    for count in 0..depth {
        lines.push((Instr::Enter(V, None), pair(count, -count), vec![]));
    }
    for count in (1..=depth).rev() {
        lines.push((Instr::Exit(V), pair(count, -count), vec![]));
    }
    lines.push((Instr::Return, pair(0, 0), vec![]));
    let rows = lines.iter().map(|line| Row::new(&[line.1], &line.2));
    Method {
        variables: 1,
        stack_limit: 1,
        code: lines.iter().map(|line| line.0).collect(),
        rows: rows.collect(),
        ..Method::default()
    }
}

#[test]
fn dips_end_at_63() {
    comes_back(&nested(1));
    comes_back(&nested(63));
    // high() stands in for the 64 that no entry can hold.
    let mut deeper = nested(63);
    deeper.code.splice(2..2, [Instr::Enter(V, None)]);
    deeper.code.splice(128..128, [Instr::Exit(V)]);
    let row = Row::new(&[pair(0, 0)], &[]);
    deeper.rows.splice(2..2, [row.clone()]);
    deeper.rows.splice(128..128, [row]);
    has_none(&deeper);
}

/// It is thrown to itself for ever, so nothing is ever asked of its end.
#[test]
fn what_never_ends_gets_the_least_end() {
    comes_back(&method(
        0,
        1,
        &[
            (Instr::New(0, None), &[], &[]),
            (Instr::Athrow(Some(Addr(2))), &[], &[pair(0, -63)]),
        ],
    ));
    // Before a lock is taken, the end is one above.
    comes_back(&method(
        1,
        1,
        &[
            (Instr::New(0, None), &[Entry::Top], &[]),
            (Instr::Store(V), &[Entry::Top], &[pair(0, -62)]),
            (Instr::Enter(V, None), &[pair(0, -62)], &[]),
            (Instr::Load(V), &[pair(0, -63)], &[]),
            (
                Instr::Athrow(Some(Addr(5))),
                &[pair(0, -63)],
                &[pair(0, -63)],
            ),
        ],
    ));
}

/// The lock is given back by its second name: load hands over what is owing.
#[test]
fn a_second_name_gives_back() {
    let (top, free, held) = (Entry::Top, pair(0, 0), pair(1, -1));
    comes_back(&method(
        2,
        1,
        &[
            (Instr::New(0, None), &[top, top], &[]),
            (Instr::Store(V), &[top, top], &[free]),
            (Instr::Enter(V, None), &[free, top], &[]),
            (Instr::Load(V), &[held, top], &[]),
            (Instr::Store(W), &[free, top], &[held]),
            (Instr::Exit(W), &[free, held], &[]),
            (Instr::Return, &[free, free], &[]),
        ],
    ));
    // Made before the lock is taken, it would need a dip of its own.
    has_none(&method(
        2,
        1,
        &[
            (Instr::New(0, None), &[top, top], &[]),
            (Instr::Store(V), &[top, top], &[free]),
            (Instr::Load(V), &[free, top], &[]),
            (Instr::Store(W), &[free, top], &[free]),
            (Instr::Enter(V, None), &[free, free], &[]),
            (Instr::Exit(W), &[free, free], &[]),
            (Instr::Return, &[free, free], &[]),
        ],
    ));
}

/// A new that may fail while the lock is held; the handler gives it back.
fn handled(last: Instr) -> Method {
    let (top, free, held) = (Entry::Top, pair(0, 0), pair(1, -1));
    method(
        1,
        1,
        &[
            (Instr::New(0, None), &[top], &[]),
            (Instr::Store(V), &[top], &[free]),
            (Instr::Enter(V, None), &[free], &[]),
            (Instr::New(0, Some(Addr(8))), &[held], &[]),
            (Instr::Pop, &[held], &[free]),
            (Instr::Exit(V), &[held], &[]),
            (Instr::Return, &[free], &[]),
            (Instr::Pop, &[held], &[free]),
            (last, &[held], &[]),
            (Instr::Return, &[free], &[]),
        ],
    )
}

#[test]
fn a_handler_asks_too() {
    comes_back(&handled(Instr::Exit(V)));
    has_none(&handled(Instr::Enter(V, None)));
    // With no handler the lock would be kept.
    let mut uncaught = handled(Instr::Exit(V));
    uncaught.code[3] = Instr::New(0, None);
    has_none(&uncaught);
}

/// A lock that is read from a field: what may be null has no pair, and after
/// its monitorenter one release is owing and no more.
fn read_from_a_field(exits: usize) -> Method {
    let (top, free, null) = (Entry::Top, pair(0, 0), Entry::Nullable { class: 0 });
    let field = Field {
        class: 0,
        number: 0,
    };
    let mut lines: Vec<(Instr, [Entry; 1], Vec<Entry>)> = vec![
        (Instr::New(0, None), [top], vec![]),
        (Instr::Getfield(field, None), [top], vec![free]),
        (Instr::Store(V), [top], vec![null]),
        (Instr::Enter(V, None), [null], vec![]),
    ];
    for owing in (1..=exits as i16).rev() {
        lines.push((Instr::Exit(V), [pair(owing, -owing)], vec![]));
    }
    lines.push((Instr::Return, [free], vec![]));
    let lines: Vec<Line> = lines.iter().map(|l| (l.0, &l.1[..], &l.2[..])).collect();
    Method {
        fields: vec![0],
        ..method(1, 1, &lines)
    }
}

#[test]
fn kind_4_has_no_pair() {
    comes_back(&read_from_a_field(1));
    has_none(&read_from_a_field(0));
    has_none(&read_from_a_field(2));
    // Variable 0 of row 4, behind a field, six instructions and rows of nine bytes.
    let good = lay_out(&[read_from_a_field(1)]);
    let at = 1 + 6 * 4 + 3 * 9;
    assert_eq!(good[at..at + 4], [4, 0, 0, 0]);
    for (byte, value) in [(at + 2, 1), (at + 3, 64), (at + 1, 1)] {
        let mut b = good.clone();
        b[byte] = value;
        stays(&b, Verdict::new(8, 0, 4));
    }
}

#[test]
fn rows_are_looked_at_beside_their_pairs() {
    let good = lay_out(&[case_a()]);
    let row = |address: usize| 36 + 9 * (address - 1);
    let refused = |at: usize, entry: Raw, address: u16| {
        let mut b = good.clone();
        b[at..at + 4].copy_from_slice(&entry);
        stays(&b, Verdict::new(8, 0, address));
    };
    // No such class; no such kind; Int with something behind it.
    refused(row(3), [3, 1, 0, 64], 3);
    refused(row(3), [5, 0, 0, 64], 3);
    refused(row(5) + 5, [1, 0, 0, 64], 5);
    // An unused entry has no pair either.
    refused(row(4) + 5, [3, 0, 0, 64], 4);
    refused(row(4) + 5, [0, 0, 0, 64], 4);
    refused(row(4) + 5, [0, 0, 1, 0], 4);
    // A depth above K.
    let mut b = good.clone();
    b[row(9) + 4] = 2;
    stays(&b, Verdict::new(8, 0, 9));
}

#[test]
fn what_no_pair_mends() {
    let (top, free) = (Entry::Top, pair(0, 0));
    let returns = |variables: &[Entry], stack: &[Entry]| {
        method(variables.len(), 1, &[(Instr::Return, variables, stack)])
    };
    comes_back(&returns(&[top], &[]));
    // Row 1: a depth, and a variable that is no argument.
    has_none(&returns(&[top], &[free]));
    has_none(&returns(&[free], &[]));
    has_none(&returns(&[Entry::Int], &[]));
    // A depth; a kind.
    has_none(&method(
        0,
        1,
        &[(Instr::Push0, &[], &[]), (Instr::Return, &[], &[])],
    ));
    has_none(&method(
        0,
        1,
        &[(Instr::Push0, &[], &[]), (Instr::Return, &[], &[free])],
    ));
}

/// A lock that each turn of a loop takes once more, and one that each gives back
/// once more: no number would do.
#[test]
fn loops_that_grow() {
    let (top, free) = (Entry::Top, pair(0, 0));
    let turning = |lock: Instr| {
        method(
            1,
            1,
            &[
                (Instr::New(0, None), &[top], &[]),
                (Instr::Store(V), &[top], &[free]),
                (lock, &[free], &[]),
                (Instr::Push0, &[free], &[]),
                (Instr::If(Addr(3)), &[free], &[Entry::Int]),
                (Instr::Return, &[free], &[]),
            ],
        )
    };
    has_none(&turning(Instr::Enter(V, None)));
    has_none(&turning(Instr::Exit(V)));
}

/// A started thread's argument comes with (0,0), and may be locked.
#[test]
fn arguments() {
    let (free, held) = (pair(0, 0), pair(1, -1));
    let lines: [Line; 3] = [
        (Instr::Enter(V, None), &[free], &[]),
        (Instr::Exit(V), &[held], &[]),
        (Instr::Return, &[free], &[]),
    ];
    let main = method(0, 0, &[(Instr::Return, &[], &[])]);
    let mut started = Method {
        arguments: vec![0],
        ..method(1, 0, &lines)
    };
    let wanted = lay_out(&[main.clone(), started.clone()]);
    let mut b = lay_out(&[main.clone(), high(&started)]);
    assert_eq!(fill(&mut b), Verdict::new(0, 2, 0));
    assert_eq!(b, wanted);
    started.code[0] = Instr::Exit(V);
    stays(&lay_out(&[main, started]), NONE);
}

/// Two classes with rows of nine bytes: return with one variable, Top.
fn twice(gap: &[u8]) -> Vec<u8> {
    let returns = method(1, 1, &[(Instr::Return, &[Entry::Top], &[])]);
    let mut layout = Layout::new();
    layout.place(&returns);
    layout.pad(gap);
    layout.place(&returns);
    layout.finish()
}

#[test]
fn records_share_no_byte() {
    for gap in [&[][..], &[7]] {
        let mut b = twice(gap);
        let before = b.clone();
        assert_eq!(fill(&mut b), Verdict::new(0, 2, 0));
        assert_eq!(b, before);
    }
    // One record for both.
    let mut b = twice(&[]);
    let directory = b.len() - 8 - 16;
    b[directory + 9] = 0;
    assert_eq!(verify(&b).number, 0);
    stays(&b, SHARED);
    // The directory begins with the last byte of the second record.
    let returns = method(1, 1, &[(Instr::Return, &[Entry::Top], &[])]);
    let mut layout = Layout::new();
    layout.place(&returns);
    let b = layout.finish_with_directory_at(12);
    assert_eq!(verify(&b).number, 0);
    stays(&b, SHARED);
}

#[test]
fn the_order_of_refusals() {
    // 8 before 23: one record for both, and an entry that is malformed.
    let mut b = twice(&[]);
    let directory = b.len() - 8 - 16;
    b[directory + 9] = 0;
    b[4] = 7;
    stays(&b, Verdict::new(8, 0, 1));
    // 23 before 22: Int where Top must be, in the record of both.
    b[4] = 1;
    stays(&b, SHARED);
    b[directory + 9] = 13;
    stays(&b, NONE);
    // 7 before 8, and what has no trailer.
    b[0] = 0;
    b[4] = 7;
    stays(&b, Verdict::new(7, 0, 1));
    stays(&[], Verdict::new(1, 0, 0));
    stays(&[0; 8], Verdict::new(2, 0, 0));
    stays(&Draft::default().lay_out(), Verdict::new(3, 0, 0));
}
