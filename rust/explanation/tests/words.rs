//! What is told of each kind of breach, on bundles made by hand.

use explanation::explain;
use generator::builder::{case_a, lay_out, Method, Row};
use hveitmar::{verify, Verdict};
use reference::bundle::INT as INT_DESCRIPTOR;
use reference::entries::Entry;
use reference::instructions::{Addr, Field, Instr, Var};

const V: Var = Var(0);
const INT: Entry = Entry::Int;
const TOP: Entry = Entry::Top;

const fn reference(dip: i16, end: i16) -> Entry {
    Entry::reference(0, dip, end)
}

/// A reference of class 0 that may be null.
const NULL: Entry = Entry::Nullable { class: 0 };
/// Fields of class 0: an integer and a reference.
const NUMBER: Field = Field {
    class: 0,
    number: 0,
};
const LOCK: Field = Field {
    class: 0,
    number: 1,
};

fn row(variable: Entry, stack: &[Entry]) -> Row {
    Row::new(&[variable], stack)
}

/// The verdict's number and the text of its explanation, in one line.
fn told(bundle: &[u8]) -> (u8, String) {
    let Verdict::Refused(refusal) = verify(bundle) else {
        panic!("it is accepted");
    };
    let text = explain(bundle, refusal).to_string();
    (refusal.number(), text.replace('\n', " "))
}

fn tells(bundle: &[u8], number: u8, sentences: &[&str]) {
    let (found, text) = told(bundle);
    assert_eq!(found, number, "{text}");
    for sentence in sentences {
        assert!(text.contains(sentence), "{sentence}\n{text}");
    }
}

/// Address 1 ends the thread, so that row 2, that of the instruction, may
/// claim anything.
fn ruled(instr: Instr, own: Row, next: Row) -> Vec<u8> {
    lay_out(&[Method {
        fields: vec![INT_DESCRIPTOR, 0],
        variables: 1,
        stack_limit: 3,
        code: vec![Instr::Return, instr, Instr::Return],
        rows: vec![row(TOP, &[]), own, next],
        ..Method::default()
    }])
}

/// Case A with one byte changed.
fn changed(at: usize, byte: u8) -> Vec<u8> {
    let mut bundle = lay_out(&[case_a()]);
    bundle[at] = byte;
    bundle
}

#[test]
fn the_container() {
    tells(&[0; 3], 1, &["8 to 65535 bytes", "there are 3"]);
    tells(
        &changed(132, 0),
        2,
        &["bytes 131 to 132  4C 00", "4C 4B is wanted"],
    );
    tells(
        &changed(130, 7),
        2,
        &["bytes 129 to 130  00 07", "says 7, and there are 133 bytes"],
    );
    tells(
        &changed(127, 9),
        3,
        &["byte 127", "09", "There are 9 classes"],
    );
    tells(
        &changed(126, 118),
        3,
        &[
            "bytes 125 to 126  00 76",
            "end at byte 126, and the trailer begins at 125",
        ],
    );
    tells(
        &changed(128, 1),
        3,
        &[
            "byte 128  01",
            "Class 1 is said to be thrown, and there is 1 class",
        ],
    );
    tells(
        &changed(120, 17),
        4,
        &["byte 120", "11", "V is 17, and at most 16"],
    );
    tells(
        &changed(118, 9),
        5,
        &[
            "bytes 117 to 118  00 09",
            "has 117 bytes: it would end at byte 126",
        ],
    );
}

#[test]
fn the_table() {
    tells(
        &changed(0, 15),
        7,
        &["byte 0  0F", "No instruction has the opcode 15."],
    );
    tells(
        &changed(5, 1),
        7,
        &["byte 5  01", "The operand of store is 1", "1 variable,"],
    );
    tells(
        &changed(19, 10),
        7,
        &["bytes 18 to 19  00 0A", "must be a target, 1 to 9"],
    );
    tells(
        &changed(32, 2),
        7,
        &["byte 32  02", "Address 9 is the last"],
    );
}

#[test]
fn the_rows() {
    tells(
        &changed(40, 2),
        8,
        &[
            "byte 40  02",
            "The depth is 2, and the limit of the stack is 1.",
        ],
    );
    tells(
        &changed(65, 64),
        8,
        &["bytes 63 to 66  03 00 40 3F", "Variable 0: its dip is 64"],
    );
    tells(
        &changed(64, 1),
        8,
        &["it refers to class 1, and there is 1 class"],
    );
    tells(
        &changed(36, 1),
        10,
        &["Variable 0 is no argument, and row 1 claims Int of it"],
    );
}

#[test]
fn what_is_asked() {
    let pop = |own, next| ruled(Instr::Pop, own, next);
    let few = [
        "takes 1 entry from the stack, and row 2 has 0: 1 too few",
        "answer 11",
    ];
    tells(&pop(row(TOP, &[]), row(TOP, &[])), 9, &few);
    let dropped = [
        "The top is C0(2,-2) and would be dropped: its end is 2 below 0",
        "2 releases owing",
    ];
    tells(
        &pop(row(TOP, &[reference(2, -2)]), row(TOP, &[])),
        9,
        &dropped,
    );
    let deep = [
        "leaves 0 entries on the stack, and row 3 claims 1: 1 too many",
        "path 2 to 3",
    ];
    tells(&pop(row(TOP, &[INT]), row(TOP, &[INT])), 9, &deep);
    let taken = ["Variable 0 is Top, and a reference is wanted", "answer 13"];
    tells(
        &ruled(Instr::Enter(V, None), row(TOP, &[]), row(TOP, &[])),
        9,
        &taken,
    );
}

#[test]
fn what_does_not_fit() {
    let held = reference(1, -1);
    let share = ruled(Instr::Load(V), row(held, &[]), row(held, &[held]));
    let twice = "Variable 0 is C0(1,-1), and row 3 claims C0(1,-1) there and C0(1,-1) on top: \
                 the dip is 1 and must be at least 2, so it is 1 too small.";
    tells(
        &share,
        9,
        &[twice, "The path 2 to 3 would allow 1 release too many."],
    );
    let enter = ruled(
        Instr::Enter(V, None),
        row(held, &[]),
        row(reference(2, 0), &[]),
    );
    let taken = "with the lock taken (2,-2), and row 3 claims C0(2,0): the end is -2 and must be \
                 at least 0, so it is 2 too small.";
    tells(
        &enter,
        9,
        &[taken, "The path 2 to 3 leaves 2 releases owing."],
    );
    let kind = ruled(Instr::Pop, row(INT, &[INT]), row(held, &[]));
    let other = "Variable 0 comes as Int, and row 3 claims C0(1,-1): an integer is not a \
                 reference of class 0.";
    tells(
        &kind,
        9,
        &[other, "Row 3 would use a lock that may not be there."],
    );
}

#[test]
fn a_handler_s_row() {
    let bundle = ruled(
        Instr::New(0, Some(Addr(1))),
        row(TOP, &[]),
        row(TOP, &[reference(0, 0)]),
    );
    tells(
        &bundle,
        9,
        &[
            "row 1, whose stack must hold C0(0,0) alone",
            "row 1 claims 0: 1 too few",
        ],
    );
}

#[test]
fn fields_of_the_container() {
    tells(
        &changed(122, 5),
        4,
        &[
            "byte 122  05",
            "The field count is 5, and at most 4 are allowed.",
        ],
    );
    tells(
        &changed(122, 1),
        6,
        &["byte 0  09", "Field 0 is said to be of class 9"],
    );
    let mut bundle = ruled(Instr::Return, row(TOP, &[]), row(TOP, &[]));
    bundle[1] = 7;
    tells(
        &bundle,
        6,
        &[
            "byte 1  07",
            "Field 1 is said to be of class 7, and there is 1 class",
        ],
    );
}

#[test]
fn fields_of_the_table() {
    let access = |operand| {
        let mut bundle = ruled(Instr::Getfield(NUMBER, None), row(TOP, &[]), row(TOP, &[]));
        bundle[2 + 4 + 1] = operand;
        bundle
    };
    tells(
        &access(2),
        7,
        &[
            "byte 7  02",
            "it names field 2 of class 0, and there are 2 fields",
        ],
    );
    tells(
        &access(4),
        7,
        &[
            "The operand of getfield is 4",
            "it names class 1, and there is 1 class",
        ],
    );
    let enter = Instr::Enter(V, Some(Addr(4)));
    tells(
        &ruled(enter, row(TOP, &[]), row(TOP, &[])),
        7,
        &[
            "The address field of monitorenter is 4",
            "a handler, 1 to 3, or 0",
        ],
    );
}

#[test]
fn an_entry_that_may_be_null() {
    let mut bundle = ruled(Instr::Return, row(NULL, &[]), row(TOP, &[]));
    let entry = 2 + 12 + 17;
    bundle[entry + 3] = 64;
    tells(
        &bundle,
        8,
        &[
            "04 00 00 40",
            "a reference that may be null has zeros behind its class",
        ],
    );
    bundle[entry + 1] = 1;
    tells(&bundle, 8, &["it refers to class 1, and there is 1 class"]);
}

#[test]
fn what_may_be_null_does_not_fit() {
    let null = ruled(Instr::Pop, row(NULL, &[INT]), row(reference(0, 0), &[]));
    let found = "Variable 0 comes as C0?, and row 3 claims C0(0,0): a reference of class 0 that \
                 may be null is not a reference of class 0.";
    tells(
        &null,
        9,
        &[found, "Row 3 would use an object where null may be."],
    );
    let owing = ruled(Instr::Pop, row(reference(1, -1), &[INT]), row(NULL, &[]));
    let found = "claims C0?: the end is -1 and must be at least 0, so it is 1 too small.";
    tells(&owing, 9, &[found, "leaves 1 release owing"]);
}

#[test]
fn a_lock_that_may_be_null() {
    let enter = |next, handler| ruled(Instr::Enter(V, handler), row(NULL, &[]), row(next, &[]));
    let law = "It takes the lock of a reference that may be null, which then counts as (1,-1)";
    let taken = "Variable 0 is C0?, with the lock taken (1,-1), and row 3 claims C0(0,0): the end \
                 is -1";
    tells(&enter(reference(0, 0), None), 9, &[law, taken]);
    let caught = enter(reference(1, -1), Some(Addr(1)));
    tells(
        &caught,
        9,
        &[
            "As null is thrown, on no stack entry may anything be owing",
            "row 1, whose stack must hold C0(0,0) alone",
            "row 1 claims 0: 1 too few",
        ],
    );
}

#[test]
fn field_instructions() {
    let get = |owner, next| {
        let instr = Instr::Getfield(LOCK, None);
        ruled(instr, row(TOP, &[owner]), row(TOP, &[next]))
    };
    tells(
        &get(INT, NULL),
        9,
        &[
            "stands getfield C0.1.",
            "takes the owner, a reference of class 0, from the top and puts there what its field \
             1 holds, C0?",
            "The top is Int, and a reference of class 0, null or not, is wanted.",
            "answer 13",
        ],
    );
    tells(
        &get(NULL, reference(0, 0)),
        9,
        &[
            "As null is thrown",
            "as no handler catches it",
            "The top comes as C0?, and row 3 claims C0(0,0)",
        ],
    );
    tells(
        &get(reference(1, -1), NULL),
        9,
        &["The top is C0(1,-1) and would be dropped"],
    );
    let put = |field, value| {
        let own = row(TOP, &[value, reference(0, 0)]);
        ruled(Instr::Putfield(field, None), own, row(TOP, &[]))
    };
    tells(
        &put(NUMBER, TOP),
        9,
        &[
            "takes the value, Int, from the top and below it the owner",
            "The top is Top, and an integer is wanted.",
        ],
    );
    tells(
        &put(LOCK, INT),
        9,
        &["The top is Int, and a reference of class 0, null or not, is wanted."],
    );
}
