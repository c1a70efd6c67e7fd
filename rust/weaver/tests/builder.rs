//! The builder's bundles, byte by byte, and what it hands on where numbers are beyond
//! every limit.

use hveitmar::{fill, verify, Verdict};
use weaver::Instruction::*;
use weaver::Kind::{Int, Nullable, Reference, Top};
use weaver::{Bundle, Class, Descriptor, GateRefusal, Kind};

fn case(name: &str) -> Vec<u8> {
    let folder = concat!(env!("CARGO_MANIFEST_DIR"), "/../../cases/");
    std::fs::read(format!("{folder}{name}")).expect("a case")
}

const LOCK: Kind = Reference(0);

/// Case A of document 01; its branch goes to this address.
fn case_a(target: u16) -> Class {
    Class::new()
        .line(New(0, None), &[Top], &[])
        .line(Store(0), &[Top], &[LOCK])
        .line(MonitorEnter(0, None), &[LOCK], &[])
        .line(Push0, &[LOCK], &[])
        .line(If(target), &[LOCK], &[Int])
        .line(MonitorExit(0), &[LOCK], &[])
        .line(Return, &[LOCK], &[])
        .line(MonitorExit(0), &[LOCK], &[])
        .line(Return, &[LOCK], &[])
}

fn alone(class: Class) -> Result<Vec<u8>, GateRefusal> {
    Bundle::new().class(class).finish()
}

#[test]
fn cases_a_and_b() {
    assert_eq!(alone(case_a(8)), Ok(case("a.bundle")));
    assert_eq!(alone(case_a(9)), Err(GateRefusal::Pairs));
}

/// Main does nothing; class 1 has an argument, two fields and a spare variable.
#[test]
fn every_part_has_its_place() {
    let other = Class::new()
        .argument(Descriptor::Class(1))
        .field(Descriptor::Int)
        .field(Descriptor::Class(0))
        .room(2, 1)
        .line(Return, &[Nullable(1)], &[]);
    let bundle = Bundle::new()
        .exception(1)
        .class(Class::new().line(Return, &[], &[]))
        .class(other);
    let wanted = [
        vec![12, 0, 0, 0, 0],
        vec![1, 255, 0, 12, 0, 0, 0],
        vec![4, 1, 0, 0, 2, 0, 0, 0, 0, 0, 0, 0, 0],
        vec![0, 0, 0, 0, 0, 0, 0, 1],
        vec![0, 5, 1, 2, 1, 2, 0, 1],
        vec![0, 25, 2, 1, 0, 49, 0x4C, 0x4B],
    ]
    .concat();
    assert_eq!(bundle.finish().as_ref(), Ok(&wanted));
    assert_eq!(bundle.draft(), wanted);
}

/// A draft is the bundle without its pairs, or what is wrong with it.
#[test]
fn drafts() {
    let bundle = Bundle::new().class(case_a(8));
    let mut draft = bundle.draft();
    assert_eq!(fill(&mut draft), Ok(1));
    assert_eq!(Ok(draft), bundle.finish());
    let mut draft = Bundle::new().class(case_a(9)).draft();
    let refusal = fill(&mut draft).expect_err("a release is passed over");
    assert_eq!(refusal.number(), GateRefusal::Pairs.number());
}

#[test]
fn refusals() {
    let nothing = Class::new().line(Return, &[], &[]);
    let row = |class, address| GateRefusal::Row { class, address };
    let refused = [
        (Bundle::new(), GateRefusal::Lengths),
        (
            Bundle::new().class(nothing.clone()).exception(1),
            GateRefusal::Exception,
        ),
        (
            Bundle::new().class(Class::new()),
            GateRefusal::Limits { class: 0 },
        ),
        (
            Bundle::new()
                .class(nothing.clone())
                .class(nothing.clone().field(Descriptor::Class(255))),
            GateRefusal::Descriptor { class: 1 },
        ),
        (
            Bundle::new().class(Class::new().line(Pop, &[], &[])),
            GateRefusal::Instruction {
                class: 0,
                address: 1,
            },
        ),
        (
            Bundle::new().class(nothing.line(Return, &[Reference(1)], &[])),
            row(0, 2),
        ),
    ];
    for (bundle, refusal) in refused {
        assert_eq!(bundle.finish(), Err(refusal));
    }
}

/// Nine classes, 256 of everything, 65,536 lines: none of it is taken for a small
/// number.
#[test]
fn numbers_are_not_cut() {
    let nothing = Class::new().line(Return, &[], &[]);
    let many = |count| (0..count).fold(Bundle::new(), |all, _| all.class(nothing.clone()));
    assert_eq!(many(8).finish().map(|bytes| bytes.len()), Ok(8 * 13 + 8));
    for count in [9, 256, 257] {
        assert_eq!(many(count).finish(), Err(GateRefusal::Lengths));
    }
    let limits = Err(GateRefusal::Limits { class: 0 });
    for count in [17, 255, 256, 257, 1_000] {
        let kinds = vec![Top; count];
        assert_eq!(alone(Class::new().line(Return, &kinds, &[])), limits);
        assert_eq!(alone(Class::new().line(Return, &[], &kinds)), limits);
        let fields = (0..count).fold(nothing.clone(), |class, _| class.field(Descriptor::Int));
        assert_eq!(alone(fields), limits);
        let arguments = (0..count).fold(nothing.clone(), |c, _| c.argument(Descriptor::Int));
        assert_eq!(alone(arguments), limits);
    }
    let lines = |count| (1..count).fold(nothing.clone(), |class, _| class.line(Return, &[], &[]));
    assert_eq!(alone(lines(257)), limits);
    for count in [65_535, 65_536, 65_537] {
        assert_eq!(alone(lines(count)), Err(GateRefusal::TooLong));
    }
}

#[test]
fn what_comes_out_is_accepted() {
    let bytes = alone(case_a(8)).expect("a bundle");
    assert_eq!(verify(&bytes), Verdict::Accepted { classes: 1 });
}

#[test]
fn refusals_are_errors_with_words() {
    let refusal: Box<dyn std::error::Error> = Box::new(alone(case_a(9)).expect_err("B"));
    assert!(refusal
        .to_string()
        .starts_with("no pairs make the verifier accept"));
    assert!(refusal.to_string().ends_with("(22)"));
}
