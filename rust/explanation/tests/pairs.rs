//! What is told where pairs can't be worked out, by hand and of every such
//! refusal of the generator.

use explanation::explain_filling;
use generator::builder::{case_a, lay_out, Layout, Method, Row};
use generator::pairs::unpaired;
use hveitmar::{fill, Refusal};
use reference::bundle::{Addr, Instr, Var};
use reference::entries::Entry;

const V: Var = Var(0);

/// The refusal, and the text of its explanation in one line.
fn told(bytes: &[u8]) -> (Refusal, String) {
    let refusal = fill(&mut bytes.to_vec()).expect_err("a refusal");
    let text = explain_filling(bytes, refusal).to_string();
    (refusal, text.replace('\n', " "))
}

fn has(text: &str, parts: &[&str]) {
    for part in parts {
        assert!(text.contains(part), "{part}\n{text}");
    }
}

/// Rows 5 and 9 want an end of 0, so row 3, before the lock is taken, one of 1;
/// a new object has 0.
#[test]
fn the_first_place_that_breaks() {
    let mut b = case_a();
    b.code[4] = Instr::If(Addr(9));
    let (refusal, text) = told(&lay_out(&[b]));
    assert_eq!(refusal, Refusal::Pairs);
    has(
        &text,
        &[
            "No pairs make the verifier accept.",
            "At address 1 of class 0 stands new 0.",
            "row 2 claims  Top | C0(0,1)",
            "the end is 0 and must be at least 1",
            "The top at address 2 of class 0 can have an end of at most 0, and 1 is asked for along \
             the way 2 to 5, 9, on which the lock is taken at 3.",
        ],
    );
    assert!(!text.contains("Each turn"), "{text}");
}

/// An object, and then a loop from 3 to 5 with this at 3.
fn turning(lock: Instr) -> Vec<u8> {
    let (top, free) = (Entry::Top, Entry::fresh(0));
    let lines: [(Instr, Entry, &[Entry]); 6] = [
        (Instr::New(0, None), top, &[]),
        (Instr::Store(V), top, &[free]),
        (lock, free, &[]),
        (Instr::Push0, free, &[]),
        (Instr::If(Addr(3)), free, &[Entry::Int]),
        (Instr::Return, free, &[]),
    ];
    lay_out(&[Method {
        variables: 1,
        stack_limit: 1,
        code: lines.iter().map(|line| line.0).collect(),
        rows: lines.iter().map(|l| Row::new(&[l.1], l.2)).collect(),
        ..Method::default()
    }])
}

#[test]
fn loops_that_grow() {
    let (_, text) = told(&turning(Instr::Enter(V, None)));
    has(
        &text,
        &[
            "Each turn of the loop 3 to 5 of class 0 takes a lock once more than it gives it back",
            "it is the lock of variable 0 at address 3.",
        ],
    );
    let (_, text) = told(&turning(Instr::Exit(V)));
    has(
        &text,
        &["Each turn of the loop 3 to 5 of class 0 gives back a lock once more than it takes it"],
    );
}

/// A new object's lock is given back: its dip would have to be 1.
#[test]
fn a_lock_that_is_not_held() {
    let mut method = case_a();
    method.code[2] = Instr::Exit(V);
    let (_, text) = told(&lay_out(&[method]));
    has(
        &text,
        &[
            "The top at address 2 of class 0 can have a dip of at most 0, and 2 is asked for along \
             the way 2 to 7, on which the lock is given back at 3, 6.",
        ],
    );
}

/// What no pair mends has its place too.
#[test]
fn kinds() {
    let (_, text) = told(&turning(Instr::Inc));
    has(&text, &["At address 3 of class 0 stands inc."]);
}

#[test]
fn records_that_share_bytes() {
    let returns = Method {
        code: vec![Instr::Return],
        rows: vec![Row::new(&[], &[])],
        ..Method::default()
    };
    let mut layout = Layout::new();
    let offset = layout.place(&returns);
    layout.enter(&returns, offset);
    let (refusal, text) = told(&layout.finish());
    assert_eq!(refusal, Refusal::Shared);
    has(
        &text,
        &[
            "no record may share a byte with another",
            "the record of class 0  bytes 0 to 4",
            "The record of class 0 and the record of class 1 share 5 bytes: bytes 0 to 4.",
        ],
    );
    // The row's depth, its last byte, is the directory's first.
    let mut layout = Layout::new();
    layout.place(&returns);
    let (_, text) = told(&layout.finish_with_directory_at(4));
    has(
        &text,
        &["The record of class 0 and the directory share 1 byte: byte 4."],
    );
}

/// Pair bytes that are no pair's are not what is wrong.
#[test]
fn malformed_rows() {
    let mut b = lay_out(&[case_a()]);
    // Row 4: variable 0 gets a dip of 255, and an unused entry a pair.
    b[36 + 27 + 2] = 255;
    b[36 + 27 + 5 + 2] = 1;
    let (refusal, text) = told(&b);
    assert_eq!(
        refusal,
        Refusal::Row {
            class: 0,
            address: 4
        }
    );
    has(&text, &["The top: a place that is not in use"]);
    assert!(!text.contains("its dip is 255"), "{text}");
}

#[test]
fn every_refusal_is_explained() {
    let mut seen = [0; 24];
    for seed in 0..4_000 {
        let bytes = unpaired(seed).bundle;
        if let Err(refusal) = fill(&mut bytes.clone()) {
            let explanation = explain_filling(&bytes, refusal);
            assert!(explanation.is_complete(), "seed {seed} {refusal}");
            assert_eq!(explanation.why(), None, "seed {seed} {refusal}");
            seen[usize::from(refusal.number())] += 1;
        }
    }
    for number in (1..=8).chain([22, 23]) {
        assert!(seen[number] >= 10, "{seen:?}");
    }
}
