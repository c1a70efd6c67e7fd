//! Fields and references that may be null, as the verifier judges them: every
//! sentence of the request, from both sides. Numbers are those of the readings.

use generator::builder::{Draft, Layout, Method, Row};
use reference::bundle::{find_record, Addr, Field, Instr, Var, Verdict, INT};
use reference::entries::Entry;
use reference::verify::verify;

const INTEGER: Entry = Entry::Int;
const TOP: Entry = Entry::Top;
/// The exception class.
const X: u8 = 2;
const HANDLER: Addr = Addr(4);
const V: Var = Var(0);
/// Fields of class 0: an integer, and references of classes 1 and 0.
const NUMBER: Field = field(0, 0);
const OTHER: Field = field(0, 1);
const OWN: Field = field(0, 2);

const fn field(class: u8, number: u8) -> Field {
    Field { class, number }
}

/// A reference that is not null.
const fn object(class: u8, dip: i16, end: i16) -> Entry {
    Entry::reference(class, dip, end)
}

/// One that may be.
const fn null(class: u8) -> Entry {
    Entry::Nullable { class }
}

fn row(variables: &[Entry], stack: &[Entry]) -> Row {
    Row::new(variables, stack)
}

/// A class that only returns.
fn idle(arguments: &[u8], fields: &[u8]) -> Method {
    let argument = |&descriptor: &u8| match descriptor {
        INT => INTEGER,
        class => object(class, 0, 0),
    };
    let variables: Vec<Entry> = arguments.iter().map(argument).collect();
    Method {
        arguments: arguments.to_vec(),
        fields: fields.to_vec(),
        variables: arguments.len(),
        code: vec![Instr::Return],
        rows: vec![row(&variables, &[])],
        ..Method::default()
    }
}

fn lay_out(methods: Vec<Method>) -> Vec<u8> {
    let exception = methods.len() as u8 - 1;
    Draft { methods, exception }.lay_out()
}

/// Main with four fields, beside class 1 (an integer and a class 1 as its
/// arguments) and class X.
fn bundle(code: &[Instr], rows: &[Row]) -> Vec<u8> {
    let main = Method {
        fields: vec![INT, 1, 0, X],
        variables: rows[0].variables.len(),
        stack_limit: 4,
        code: code.to_vec(),
        rows: rows.to_vec(),
        ..Method::default()
    };
    lay_out(vec![main, idle(&[INT, 1], &[1, INT]), idle(&[], &[X])])
}

/// Why the rule at address 2 fails, if it does: address 1 ends the thread, so
/// that row 2 may say anything; row 3 is the next one, row 4 the handler's.
fn why_to(instr: Instr, own: Row, next: Row, at: Row) -> Option<u8> {
    let first = row(&vec![TOP; own.variables.len()], &[]);
    let code = [Instr::Return, instr, Instr::Return, Instr::Return];
    let verdict = verify(&bundle(&code, &[first, own, next, at]));
    let found = (verdict.number, verdict.class, verdict.address) == (9, 0, 2);
    assert!(
        found || verdict.number == 0 || verdict.address > 2,
        "{verdict}"
    );
    found.then_some(verdict.why)
}

/// The same of an instruction that goes to the next address alone.
fn why(instr: Instr, own: Row, next: Row) -> Option<u8> {
    let any = row(&vec![TOP; own.variables.len()], &[]);
    why_to(instr, own, next, any)
}

/// How an entry compares with another, as a variable that pop leaves alone.
fn compared(entry: Entry, next: Entry) -> Option<u8> {
    why(Instr::Pop, row(&[entry], &[INTEGER]), row(&[next], &[]))
}

/// The verdict on main with one other instruction at address 1.
fn tabled(instr: Instr) -> Verdict {
    let rows = vec![row(&[TOP], &[]); 2];
    verify(&bundle(&[instr, Instr::Return], &rows))
}

/// The verdict on two classes, class 1 with these fields.
fn described(fields: &[u8]) -> Verdict {
    verify(&lay_out(vec![idle(&[], &[]), idle(&[], fields)]))
}

// The bundle (26, 27).

#[test]
fn a_class_has_up_to_four_fields() {
    for count in 0..=4 {
        assert_eq!(described(&vec![INT; count]), Verdict::new(0, 2, 0));
    }
    for count in [5, 8, 132, 255] {
        assert_eq!(described(&vec![INT; count]), Verdict::new(4, 1, 0));
    }
}

#[test]
fn main_has_fields_too() {
    let with = |count| verify(&lay_out(vec![idle(&[], &vec![0; count])]));
    assert_eq!(with(4), Verdict::new(0, 1, 0));
    assert_eq!(with(5), Verdict::new(4, 0, 0));
}

#[test]
fn fields_are_part_of_the_record() {
    let bytes = lay_out(vec![idle(&[], &[INT, 0]), idle(&[INT], &[1, 1, 0])]);
    // f + 4k + k(4V + 1 + 4K), and n in front.
    assert_eq!(find_record(&bytes, 0).len(), 2 + 4 + 1);
    assert_eq!(find_record(&bytes, 1).len(), 1 + 3 + 4 + 5);
    assert_eq!(find_record(&bytes, 1)[..5], [INT, 1, 1, 0, 12]);
}

#[test]
fn a_record_with_fields_ends_before_the_trailer() {
    let method = idle(&[], &[INT; 4]);
    let at = |offset: usize| {
        let mut layout = Layout::new();
        layout.pad(&[0; 8]);
        layout.enter(&method, offset);
        layout.pad(&method.record());
        layout.pad(&[0]);
        verify(&layout.finish_with_directory_at(0))
    };
    assert_eq!(at(8), Verdict::new(0, 1, 0));
    assert_eq!(at(10), Verdict::new(5, 0, 0));
}

#[test]
fn a_field_is_an_integer_or_of_a_class() {
    assert_eq!(described(&[0, 1, INT]), Verdict::new(0, 2, 0));
    assert_eq!(described(&[0, 2]), Verdict::new(6, 1, 0));
    assert_eq!(described(&[0xFE]), Verdict::new(6, 1, 0));
    assert_eq!(described(&[INT, INT, INT, 8]), Verdict::new(6, 1, 0));
}

#[test]
fn descriptors_of_arguments_come_first() {
    let with = |argument, field| {
        verify(&lay_out(vec![idle(&[], &[]), {
            let mut method = idle(&[INT], &[INT]);
            (method.arguments[0], method.fields[0]) = (argument, field);
            method
        }]))
    };
    assert_eq!(with(INT, 1).number, 0);
    assert_eq!(with(1, 1).number, 10, "row 1 says Int");
    assert_eq!(with(2, 1), Verdict::new(6, 1, 0));
    assert_eq!(with(INT, 2), Verdict::new(6, 1, 0));
}

#[test]
fn field_count_before_record_before_descriptor() {
    let record = |fields: &[u8], offset: u8| {
        let mut bytes = lay_out(vec![idle(&[], fields)]);
        let entry = bytes.len() - 16;
        bytes[entry + 1] = offset;
        verify(&bytes).number
    };
    assert_eq!(record(&[9; 5], 200), 4);
    assert_eq!(record(&[9; 4], 200), 5);
    assert_eq!(record(&[9; 4], 0), 6);
    assert_eq!(record(&[0; 4], 0), 0);
}

#[test]
fn code_and_rows_stand_behind_the_fields() {
    let with = |at: usize, byte: u8| {
        let mut bytes = lay_out(vec![idle(&[], &[INT, INT, 0])]);
        bytes[at] = byte;
        verify(&bytes)
    };
    assert_eq!(with(3, 12), Verdict::new(0, 1, 0));
    assert_eq!(with(3, 15), Verdict::new(7, 0, 1));
    assert_eq!(with(7, 1), Verdict::new(8, 0, 1), "the depth");
}

#[test]
fn an_operand_names_a_class() {
    for access in [Instr::Getfield, Instr::Putfield] {
        assert_eq!(tabled(access(field(X, 0), None)).number, 9);
        assert_eq!(tabled(access(field(3, 0), None)), Verdict::new(7, 0, 1));
        assert_eq!(tabled(access(field(63, 3), None)), Verdict::new(7, 0, 1));
    }
}

#[test]
fn an_operand_names_a_field_of_its_class() {
    let counts = [4, 2, 1];
    for (class, count) in (0..).zip(counts) {
        for number in 0..4 {
            let wanted = if number < count { 9 } else { 7 };
            let instr = Instr::Getfield(field(class, number), None);
            assert_eq!(tabled(instr).number, wanted, "{class} {number}");
            let instr = Instr::Putfield(field(class, number), None);
            assert_eq!(tabled(instr).number, wanted, "{class} {number}");
        }
    }
}

#[test]
fn a_class_without_fields_has_no_operand() {
    let with = |number| {
        let mut main = idle(&[], &[]);
        main.code.insert(0, Instr::Getfield(field(0, number), None));
        main.rows.push(main.rows[0].clone());
        verify(&lay_out(vec![main])).number
    };
    assert_eq!((with(0), with(3)), (7, 7));
}

#[test]
fn three_instructions_more_may_name_a_handler() {
    let with = |handler| {
        let handler = Some(Addr(handler));
        [
            Instr::Enter(V, handler),
            Instr::Getfield(NUMBER, handler),
            Instr::Putfield(NUMBER, handler),
        ]
        .map(|instr| tabled(instr).number)
    };
    assert_eq!(with(0), [9, 9, 9]);
    assert_eq!(with(1), [9, 9, 9]);
    assert_eq!(with(2), [9, 9, 9]);
    assert_eq!(with(3), [7, 7, 7]);
    assert_eq!(with(65_535), [7, 7, 7]);
}

#[test]
fn monitorexit_names_none() {
    let mut bytes = bundle(&[Instr::Exit(V), Instr::Return], &vec![row(&[TOP], &[]); 2]);
    assert_eq!(verify(&bytes).number, 9);
    bytes[4 + 3] = 1;
    assert_eq!(verify(&bytes), Verdict::new(7, 0, 1));
}

#[test]
fn field_instructions_do_not_end_the_code() {
    for access in [Instr::Getfield, Instr::Putfield] {
        let code = [Instr::Return, access(NUMBER, Some(Addr(1)))];
        let rows = vec![row(&[TOP], &[]); 2];
        assert_eq!(verify(&bundle(&code, &rows)), Verdict::new(7, 0, 2));
    }
    assert_eq!(tabled(Instr::Return).number, 0);
}

#[test]
fn opcodes_end_with_14() {
    let with = |opcode| {
        let mut bytes = bundle(&[Instr::Return; 2], &vec![row(&[TOP], &[]); 2]);
        bytes[4] = opcode;
        verify(&bytes).number
    };
    assert_eq!([with(12), with(13), with(14)], [0, 9, 9]);
    assert_eq!([with(0), with(15), with(255)], [7, 7, 7]);
}

#[test]
fn fields_may_be_described_by_another_s_code() {
    let at = |offset| {
        let mut outer = idle(&[], &[]);
        outer.code.push(Instr::Return);
        outer.rows.push(outer.rows[0].clone());
        let mut layout = Layout::new();
        layout.place(&outer);
        layout.enter(&idle(&[], &[0; 3]), offset);
        verify(&layout.finish())
    };
    // 0C 00 00 00 0C 00 00 00 00 00: three zeros, return, depth 0.
    assert_eq!(at(1), Verdict::new(0, 2, 0));
    assert_eq!(at(0), Verdict::new(6, 1, 0));
}

// Entries (28, 29, 40).

#[test]
fn kind_4_is_four_bytes() {
    let with = |raw: [u8; 4]| {
        let mut bytes = bundle(&[Instr::Return; 2], &vec![row(&[TOP], &[]); 2]);
        let second = 4 + 8 + 21;
        bytes[second..second + 4].copy_from_slice(&raw);
        verify(&bytes)
    };
    let malformed = Verdict::new(8, 0, 2);
    assert_eq!(with([4, 0, 0, 0]), Verdict::new(0, 3, 0));
    assert_eq!(with([4, 2, 0, 0]), Verdict::new(0, 3, 0));
    assert_eq!(with([4, 3, 0, 0]), malformed);
    assert_eq!(with([4, 0, 1, 0]), malformed);
    assert_eq!(with([4, 0, 0, 1]), malformed);
    assert_eq!(with([4, 0, 0, 64]), malformed);
    assert_eq!(with([5, 0, 0, 0]), malformed);
}

#[test]
fn kind_4_fits_kind_4_of_its_class() {
    assert_eq!(compared(null(0), null(0)), None);
    assert_eq!(compared(null(1), null(1)), None);
    assert_eq!(compared(null(0), null(1)), Some(1));
    assert_eq!(compared(null(1), null(0)), Some(1));
}

#[test]
fn kind_4_fits_top_and_nothing_else() {
    assert_eq!(compared(null(0), TOP), None);
    assert_eq!(compared(null(0), INTEGER), Some(1));
    for (dip, end) in [(0, 0), (0, -1), (1, -1), (0, 1)] {
        assert_eq!(compared(null(0), object(0, dip, end)), Some(1));
    }
}

#[test]
fn integers_and_top_never_fit_kind_4() {
    assert_eq!(compared(INTEGER, null(0)), Some(1));
    assert_eq!(compared(TOP, null(0)), Some(1));
    assert_eq!(compared(INTEGER, TOP), None);
}

#[test]
fn kind_3_that_owes_nothing_fits_kind_4() {
    for (dip, end) in [(0, 0), (63, 0), (0, 1), (5, 63)] {
        assert_eq!(compared(object(0, dip, end), null(0)), None);
    }
    for (dip, end) in [(0, -1), (1, -1), (63, -63)] {
        assert_eq!(compared(object(0, dip, end), null(0)), Some(3));
    }
}

#[test]
fn kind_3_does_not_fit_kind_4_of_another_class() {
    assert_eq!(compared(object(1, 0, 0), null(0)), Some(1));
    assert_eq!(compared(object(1, 1, -1), null(0)), Some(1));
    assert_eq!(compared(object(0, 1, -1), null(0)), Some(3));
}

#[test]
fn kind_4_may_go() {
    let pop = |top| why(Instr::Pop, row(&[TOP], &[top]), row(&[TOP], &[]));
    assert_eq!(pop(null(0)), None);
    assert_eq!(pop(object(0, 0, -1)), Some(0));
    let store = |old| {
        why(
            Instr::Store(V),
            row(&[old], &[INTEGER]),
            row(&[INTEGER], &[]),
        )
    };
    assert_eq!(store(null(1)), None);
    assert_eq!(store(object(1, 0, -1)), Some(0));
    let end = |own| why(Instr::Return, own, row(&[TOP], &[]));
    assert_eq!(end(row(&[null(0)], &[null(1), null(2)])), None);
    assert_eq!(end(row(&[null(0)], &[null(1), object(2, 0, -1)])), Some(0));
}

#[test]
fn row_1_may_doubt_an_argument() {
    let with = |v: usize, entry| {
        let mut second = idle(&[INT, 1], &[]);
        second.rows[0].variables[v] = entry;
        verify(&lay_out(vec![idle(&[], &[]), second]))
    };
    assert_eq!(with(1, null(1)), Verdict::new(0, 2, 0));
    assert_eq!(with(1, null(0)), Verdict::new(10, 1, 0));
    assert_eq!(with(0, null(1)), Verdict::new(10, 1, 0));
}

#[test]
fn row_1_has_top_where_there_is_no_argument() {
    let with = |entry| {
        let mut main = idle(&[], &[]);
        main.variables = 1;
        main.rows[0].variables.push(entry);
        verify(&lay_out(vec![main])).number
    };
    assert_eq!((with(TOP), with(null(0))), (0, 10));
}

// load (28, 40).

#[test]
fn load_copies_kind_4() {
    let load = |kept, given| why(Instr::Load(V), row(&[null(0)], &[]), row(&[kept], &[given]));
    for kept in [null(0), TOP] {
        for given in [null(0), TOP] {
            assert_eq!(load(kept, given), None);
        }
    }
    for wrong in [null(1), object(0, 0, 0), INTEGER] {
        assert_eq!(load(wrong, null(0)), Some(1));
        assert_eq!(load(null(0), wrong), Some(1));
    }
}

#[test]
fn load_of_kind_4_compares_at_both_places() {
    let load = |next| {
        let own = row(&[null(0), object(0, 0, 0)], &[]);
        why(Instr::Load(V), own, next)
    };
    let second = object(0, 1, 0);
    // v, then the other variable, then the new top.
    assert_eq!(load(row(&[INTEGER, second], &[null(0)])), Some(1));
    assert_eq!(load(row(&[null(0), second], &[INTEGER])), Some(2));
    assert_eq!(load(row(&[null(0), TOP], &[INTEGER])), Some(1));
    assert_eq!(load(row(&[null(0), TOP], &[TOP])), None);
}

#[test]
fn load_of_kind_3_to_kind_4_weighs_nothing() {
    let load = |own, kept, given| why(Instr::Load(V), row(&[own], &[]), row(&[kept], &[given]));
    let held = object(0, 1, -1);
    assert_eq!(load(held, held, null(0)), None);
    assert_eq!(load(held, null(0), held), None);
    assert_eq!(load(held, null(0), null(0)), Some(3));
    assert_eq!(load(object(0, 1, 0), null(0), null(0)), None);
    assert_eq!(load(object(0, 0, 1), object(0, 1, 0), null(0)), Some(2));
    assert_eq!(load(held, held, null(1)), Some(1));
    assert_eq!(load(held, null(1), held), Some(1));
}

// The locks (28, 30, 32).

fn locked(instr: Instr, own: Entry, next: Entry) -> Option<u8> {
    let at = row(&[TOP], &[TOP]);
    why_to(instr, row(&[own], &[]), row(&[next], &[]), at)
}

#[test]
fn monitorexit_to_kind_4() {
    let exit = |own, next| locked(Instr::Exit(V), own, next);
    assert_eq!(exit(object(0, 1, -1), null(0)), None);
    assert_eq!(exit(object(0, 1, -2), null(0)), Some(3));
    assert_eq!(exit(object(0, 0, 0), null(0)), Some(2));
    assert_eq!(exit(object(0, 1, -1), null(1)), Some(1));
}

#[test]
fn monitorexit_needs_kind_3() {
    assert_eq!(locked(Instr::Exit(V), null(0), null(0)), Some(0));
    assert_eq!(locked(Instr::Exit(V), null(0), TOP), Some(0));
    assert_eq!(locked(Instr::Exit(V), object(0, 1, 0), TOP), None);
}

#[test]
fn monitorenter_of_kind_3_to_kind_4() {
    let enter = |own, next| locked(Instr::Enter(V, None), own, next);
    assert_eq!(enter(object(0, 0, 1), null(0)), None);
    assert_eq!(enter(object(0, 0, 0), null(0)), Some(3));
    assert_eq!(enter(object(0, 0, 1), null(1)), Some(1));
}

#[test]
fn monitorenter_of_kind_4_leaves_the_lock() {
    for handler in [None, Some(HANDLER)] {
        let enter = |next| locked(Instr::Enter(V, handler), null(0), next);
        for (dip, end) in [(1, -1), (0, -1), (1, -2), (0, -63)] {
            assert_eq!(enter(object(0, dip, end)), None);
        }
        assert_eq!(enter(object(0, 2, -1)), Some(2));
        assert_eq!(enter(object(0, 1, 0)), Some(3));
        assert_eq!(enter(object(0, 0, 0)), Some(3));
    }
}

#[test]
fn monitorenter_of_kind_4_cannot_forget_the_lock() {
    let enter = |next| locked(Instr::Enter(V, None), null(0), next);
    assert_eq!(enter(TOP), Some(3));
    assert_eq!(enter(null(0)), Some(3));
    assert_eq!(enter(null(1)), Some(1));
    assert_eq!(enter(INTEGER), Some(1));
    assert_eq!(enter(object(1, 1, -1)), Some(1));
    assert_eq!(enter(object(0, 1, -1)), None);
}

#[test]
fn monitorenter_needs_a_reference() {
    assert_eq!(locked(Instr::Enter(V, None), INTEGER, INTEGER), Some(0));
    assert_eq!(locked(Instr::Enter(V, None), TOP, TOP), Some(0));
}

// The throw of null (30, 31), by all three instructions.

/// What each of the three does with an owner or a variable of this entry,
/// beside another variable and over a stack; then the handler's row.
fn thrown(entry: Entry, beside: [Entry; 2], below: [Entry; 2], at: Option<Row>) -> [Option<u8>; 3] {
    let handler = at.is_some().then_some(HANDLER);
    let at = at.unwrap_or(row(&[TOP, TOP], &[]));
    let locked = match entry {
        Entry::Ref { class, pair } => object(class, pair.dip + 1, pair.end - 1),
        _ => object(0, 1, -1),
    };
    let ([own, next], [under, still_under]) = (beside, below);
    let enter = why_to(
        Instr::Enter(V, handler),
        row(&[entry, own], &[under]),
        row(&[locked, next], &[still_under]),
        at.clone(),
    );
    let getfield = why_to(
        Instr::Getfield(NUMBER, handler),
        row(&[TOP, own], &[entry, under]),
        row(&[TOP, next], &[INTEGER, still_under]),
        at.clone(),
    );
    let putfield = why_to(
        Instr::Putfield(NUMBER, handler),
        row(&[TOP, own], &[INTEGER, entry, under]),
        row(&[TOP, next], &[still_under]),
        at,
    );
    [enter, getfield, putfield]
}

/// Null thrown to a handler whose row is this.
fn caught(at: Row) -> [Option<u8>; 3] {
    thrown(null(0), [TOP; 2], [TOP; 2], Some(at))
}

const ALL_HOLD: [Option<u8>; 3] = [None; 3];

const fn all_fail(why: u8) -> [Option<u8>; 3] {
    [Some(why); 3]
}

#[test]
fn the_handler_s_row_has_depth_1() {
    assert_eq!(caught(row(&[TOP; 2], &[TOP])), ALL_HOLD);
    assert_eq!(caught(row(&[TOP; 2], &[])), all_fail(0));
    assert_eq!(caught(row(&[TOP; 2], &[TOP, TOP])), all_fail(0));
}

#[test]
fn the_handler_finds_what_a_failed_new_throws() {
    let entry = |entry| caught(row(&[TOP; 2], &[entry]));
    for fits in [object(X, 0, 0), object(X, 0, -1), TOP, null(X)] {
        assert_eq!(entry(fits), ALL_HOLD);
    }
    assert_eq!(entry(object(X, 1, 0)), all_fail(2));
    assert_eq!(entry(object(X, 0, 1)), all_fail(3));
    assert_eq!(entry(object(0, 0, 0)), all_fail(1));
    assert_eq!(entry(null(0)), all_fail(1));
    assert_eq!(entry(INTEGER), all_fail(1));
}

#[test]
fn variables_fit_the_handler_s_row() {
    let held = object(0, 1, -1);
    let to = |claimed| {
        let at = row(&[TOP, claimed], &[TOP]);
        thrown(null(0), [held; 2], [TOP; 2], Some(at))
    };
    assert_eq!(to(held), ALL_HOLD);
    assert_eq!(to(object(0, 0, -1)), ALL_HOLD);
    assert_eq!(to(object(0, 2, -1)), all_fail(2));
    assert_eq!(to(object(0, 0, 0)), all_fail(3));
    assert_eq!(to(TOP), all_fail(3));
    assert_eq!(to(null(0)), all_fail(3));
    assert_eq!(to(INTEGER), all_fail(1));
}

#[test]
fn the_variable_itself_goes_to_the_handler_as_kind_4() {
    let to = |claimed| {
        let (own, next) = (row(&[null(0)], &[]), row(&[object(0, 1, -1)], &[]));
        let at = row(&[claimed], &[TOP]);
        why_to(Instr::Enter(V, Some(HANDLER)), own, next, at)
    };
    assert_eq!(to(null(0)), None);
    assert_eq!(to(TOP), None);
    assert_eq!(to(null(1)), Some(1));
    assert_eq!(to(object(0, 0, 0)), Some(1));
    assert_eq!(to(object(0, 1, -1)), Some(1));
}

#[test]
fn without_a_handler_every_variable_may_go() {
    let beside = |own| thrown(null(0), [own; 2], [TOP; 2], None);
    assert_eq!(beside(TOP), ALL_HOLD);
    assert_eq!(beside(null(1)), ALL_HOLD);
    assert_eq!(beside(object(0, 3, 0)), ALL_HOLD);
    assert_eq!(beside(object(0, 1, -1)), all_fail(0));
}

#[test]
fn every_stack_entry_may_go() {
    let held = object(0, 1, -1);
    for at in [None, Some(row(&[TOP; 2], &[TOP]))] {
        let below = |own| thrown(null(0), [TOP; 2], [own; 2], at.clone());
        assert_eq!(below(null(1)), ALL_HOLD);
        assert_eq!(below(object(1, 1, 0)), ALL_HOLD);
        assert_eq!(below(held), all_fail(0));
    }
}

#[test]
fn kind_3_throws_nothing() {
    let held = object(0, 1, -1);
    // No handler, and both a variable and a stack entry that may not go.
    assert_eq!(
        thrown(object(0, 0, 0), [held; 2], [held; 2], None),
        ALL_HOLD
    );
    // A handler whose row fits in nothing.
    let at = row(&[INTEGER; 2], &[INTEGER, INTEGER]);
    assert_eq!(
        thrown(object(0, 0, 0), [held; 2], [held; 2], Some(at.clone())),
        ALL_HOLD
    );
    assert_eq!(thrown(null(0), [held; 2], [TOP; 2], Some(at)), all_fail(0));
}

#[test]
fn the_next_row_is_compared_before_the_handler_s() {
    let held = object(0, 1, -1);
    let short = object(0, 0, 0);
    let at = |variable, entry| Some(row(&[TOP, variable], &[entry]));
    let to = |next, still, at| thrown(null(0), [held, next], [null(1), still], at);
    // Both a variable and the rest of row l+1 before row h.
    assert_eq!(to(object(0, 2, -1), TOP, at(short, INTEGER)), all_fail(2));
    assert_eq!(to(held, null(0), at(short, INTEGER)), all_fail(1));
    // The handler's variables before its only entry.
    assert_eq!(to(held, TOP, at(short, INTEGER)), all_fail(3));
    assert_eq!(to(held, TOP, at(held, INTEGER)), all_fail(1));
    assert_eq!(to(held, TOP, at(held, TOP)), ALL_HOLD);
}

#[test]
fn zero_wins() {
    let held = object(0, 1, -1);
    let deep = Some(row(&[TOP; 2], &[TOP, TOP]));
    assert_eq!(thrown(null(0), [held, TOP], [TOP; 2], deep), all_fail(0));
    let misfit = thrown(null(0), [null(0), INTEGER], [held; 2], None);
    assert_eq!(misfit, all_fail(0));
    assert_eq!(
        thrown(null(0), [null(0), INTEGER], [TOP; 2], None),
        all_fail(1)
    );
}

// getfield (33).

fn gotten(field: Field, owner: Entry, next: Entry) -> Option<u8> {
    let instr = Instr::Getfield(field, None);
    why(instr, row(&[TOP], &[owner]), row(&[TOP], &[next]))
}

#[test]
fn getfield_of_an_integer() {
    let to = |next| gotten(NUMBER, object(0, 0, 0), next);
    assert_eq!(to(INTEGER), None);
    assert_eq!(to(TOP), None);
    assert_eq!(to(null(0)), Some(1));
    assert_eq!(to(object(0, 0, 0)), Some(1));
}

#[test]
fn getfield_of_a_reference() {
    let to = |next| gotten(OTHER, object(0, 0, 0), next);
    assert_eq!(to(null(1)), None);
    assert_eq!(to(TOP), None);
    assert_eq!(to(object(1, 0, 0)), Some(1), "it may be null");
    assert_eq!(to(null(0)), Some(1));
    assert_eq!(to(INTEGER), Some(1));
    assert_eq!(gotten(OWN, object(0, 0, 0), null(0)), None);
}

/// Both field instructions with an owner of this entry.
fn owned(owner: Entry) -> [Option<u8>; 2] {
    let put = Instr::Putfield(NUMBER, None);
    let put = why(put, row(&[TOP], &[INTEGER, owner]), row(&[TOP], &[]));
    [gotten(NUMBER, owner, INTEGER), put]
}

#[test]
fn the_owner_is_of_the_field_s_class() {
    assert_eq!(owned(object(0, 0, 0)), [None; 2]);
    assert_eq!(owned(null(0)), [None; 2]);
    for wrong in [object(1, 0, 0), null(1), INTEGER, TOP] {
        assert_eq!(owned(wrong), [Some(0); 2]);
    }
}

#[test]
fn the_owner_may_go() {
    assert_eq!(owned(object(0, 63, 0)), [None; 2]);
    assert_eq!(owned(object(0, 0, 63)), [None; 2]);
    assert_eq!(owned(object(0, 1, -1)), [Some(0); 2]);
}

#[test]
fn getfield_takes_one_and_gives_one() {
    let instr = Instr::Getfield(NUMBER, None);
    let to = |own: &[Entry], next: &[Entry]| why(instr, row(&[TOP], own), row(&[TOP], next));
    let owner = object(0, 0, 0);
    assert_eq!(to(&[], &[INTEGER]), Some(0));
    assert_eq!(to(&[owner], &[]), Some(0));
    assert_eq!(to(&[owner], &[INTEGER, owner]), Some(0));
    assert_eq!(to(&[owner, owner], &[INTEGER, owner]), None);
    assert_eq!(to(&[owner, owner], &[INTEGER, object(0, 1, 0)]), Some(2));
}

#[test]
fn getfield_compares_variables_then_the_new_top_then_the_rest() {
    let to = |variable, top, rest| {
        let own = row(&[object(0, 0, 0)], &[object(0, 0, 0), object(1, 0, 0)]);
        why(
            Instr::Getfield(NUMBER, None),
            own,
            row(&[variable], &[top, rest]),
        )
    };
    let (dip, end) = (object(0, 1, 0), object(1, 0, 1));
    assert_eq!(to(dip, null(0), end), Some(2));
    assert_eq!(to(TOP, null(0), end), Some(1));
    assert_eq!(to(TOP, TOP, end), Some(3));
    assert_eq!(to(TOP, TOP, TOP), None);
}

// putfield (34).

fn put(field: Field, value: Entry) -> Option<u8> {
    let own = row(&[TOP], &[value, object(0, 0, 0)]);
    why(Instr::Putfield(field, None), own, row(&[TOP], &[]))
}

#[test]
fn putfield_of_an_integer() {
    assert_eq!(put(NUMBER, INTEGER), None);
    for wrong in [TOP, null(0), object(0, 0, 0)] {
        assert_eq!(put(NUMBER, wrong), Some(0));
    }
}

#[test]
fn putfield_of_a_reference() {
    assert_eq!(put(OTHER, null(1)), None);
    assert_eq!(put(OTHER, object(1, 0, 0)), None);
    for wrong in [TOP, INTEGER, null(0), object(0, 0, 0)] {
        assert_eq!(put(OTHER, wrong), Some(0));
    }
}

#[test]
fn the_value_may_go() {
    assert_eq!(put(OTHER, object(1, 63, 0)), None);
    assert_eq!(put(OTHER, object(1, 0, 7)), None);
    assert_eq!(put(OTHER, object(1, 1, -1)), Some(0));
}

#[test]
fn the_value_lies_on_the_owner() {
    let to = |top, below| {
        let own = row(&[TOP], &[top, below]);
        why(Instr::Putfield(OTHER, None), own, row(&[TOP], &[]))
    };
    assert_eq!(to(null(1), null(0)), None);
    assert_eq!(to(null(0), null(1)), Some(0));
}

#[test]
fn putfield_takes_two() {
    let instr = Instr::Putfield(NUMBER, None);
    let to = |own: &[Entry], next: &[Entry]| why(instr, row(&[TOP], own), row(&[TOP], next));
    let owner = object(0, 0, 0);
    assert_eq!(to(&[], &[]), Some(0));
    assert_eq!(to(&[INTEGER], &[]), Some(0));
    assert_eq!(to(&[INTEGER, owner], &[owner]), Some(0));
    assert_eq!(to(&[INTEGER, owner, TOP], &[]), Some(0));
    assert_eq!(to(&[INTEGER, owner, TOP], &[TOP]), None);
    assert_eq!(to(&[INTEGER, owner, TOP], &[null(0)]), Some(1));
}

// What still needs an object (29), and what may become kind 4.

#[test]
fn start_needs_objects() {
    let start = |argument, below| {
        let own = row(&[TOP], &[INTEGER, argument, below]);
        why(Instr::Start(1), own, row(&[TOP], &[]))
    };
    let one = object(1, 0, 0);
    assert_eq!(start(one, one), None);
    assert_eq!(start(null(1), one), Some(0));
    assert_eq!(start(one, null(1)), Some(0));
}

#[test]
fn athrow_needs_an_object() {
    let throw = |top, handler| {
        let own = row(&[TOP], &[top]);
        let at = row(&[TOP], &[TOP]);
        why_to(Instr::Athrow(handler), own, row(&[TOP], &[]), at)
    };
    for handler in [None, Some(HANDLER)] {
        assert_eq!(throw(object(X, 0, 0), handler), None);
        assert_eq!(throw(null(X), handler), Some(0));
    }
}

#[test]
fn a_handler_s_entry_may_be_kind_4() {
    let throw = |top, claimed| {
        let own = row(&[TOP], &[top]);
        let at = row(&[TOP], &[claimed]);
        why_to(Instr::Athrow(Some(HANDLER)), own, row(&[TOP], &[]), at)
    };
    assert_eq!(throw(object(X, 1, 0), null(X)), None);
    assert_eq!(throw(object(X, 1, -1), null(X)), Some(3));
    assert_eq!(throw(object(X, 1, 0), null(0)), Some(1));
}

#[test]
fn what_new_makes_may_become_kind_4() {
    let new = |top| why(Instr::New(1, None), row(&[TOP], &[]), row(&[TOP], &[top]));
    assert_eq!(new(null(1)), None);
    assert_eq!(new(null(0)), Some(1));
}
