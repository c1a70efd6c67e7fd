//! The weaver's gate by hand: what is written, and each refusal in its order.

use generator::builder::{case_a, lay_out};
use reference::bundle::{Instr, Verdict};
use reference::gate::{gate, Gated, Parts};
use reference::verify::verify;

/// What is handed over, to be changed.
#[derive(Clone, Debug, Default)]
struct Given {
    classes: u32,
    exception: u32,
    directory: Vec<u8>,
    descriptors: Vec<u8>,
    instructions: Vec<u8>,
    kinds: Vec<u8>,
    depths: Vec<u8>,
}

const MARK: u8 = 0xA5;
const TOP: [u8; 2] = [2, 0];
const INT: [u8; 2] = [1, 0];
const OBJECT: [u8; 2] = [3, 0];
const UNUSED: [u8; 2] = [0, 0];

impl Given {
    fn parts(&self) -> Parts<'_> {
        Parts {
            classes: self.classes,
            exception: self.exception,
            directory: &self.directory,
            descriptors: &self.descriptors,
            instructions: &self.instructions,
            kinds: &self.kinds,
            depths: &self.depths,
        }
    }

    /// What comes out, with as much room as wanted, and the output afterwards.
    fn passed(&self, room: usize) -> (Gated, Vec<u8>) {
        let mut out = vec![MARK; room];
        (gate(&self.parts(), &mut out), out)
    }

    /// It is refused, with any room, and the output stays as it was.
    fn refused(&self, number: u8, class: u8, address: u16) {
        for room in [0, 1, 70_000] {
            let (gated, out) = self.passed(room);
            let verdict = Verdict::new(number, class, address);
            assert_eq!(gated, Gated { verdict, length: 0 });
            assert_eq!(out, vec![MARK; room]);
        }
    }

    fn changed(&self, change: impl FnOnce(&mut Given)) -> Given {
        let mut given = self.clone();
        change(&mut given);
        given
    }

    /// With one class more: its numbers, and as many returns as it has
    /// instructions, all with Top in every variable.
    fn and(&self, n: u8, v: u8, k: u8, fields: u8, code: u16) -> Given {
        self.changed(|given| {
            given.classes += 1;
            given.directory.extend([n, v, k, fields]);
            given.directory.extend(code.to_be_bytes());
            given
                .descriptors
                .extend(vec![0xFF; usize::from(n) + usize::from(fields)]);
            for _ in 0..code {
                given.instructions.extend(Instr::Return.bytes());
                given.kinds.extend(TOP.repeat(usize::from(v)));
                given.kinds.extend(UNUSED.repeat(usize::from(k)));
                given.depths.push(0);
            }
        })
    }
}

/// Case A of the document, without its pairs.
fn a() -> Given {
    let rows = [
        [TOP, UNUSED],
        [TOP, OBJECT],
        [OBJECT, UNUSED],
        [OBJECT, UNUSED],
        [OBJECT, INT],
        [OBJECT, UNUSED],
        [OBJECT, UNUSED],
        [OBJECT, UNUSED],
        [OBJECT, UNUSED],
    ];
    Given {
        classes: 1,
        directory: vec![0, 1, 1, 0, 0, 9],
        instructions: [
            [9, 0, 0, 0],
            [5, 0, 0, 0],
            [7, 0, 0, 0],
            [3, 0, 0, 0],
            [6, 0, 0, 8],
            [8, 0, 0, 0],
            [12, 0, 0, 0],
            [8, 0, 0, 0],
            [12, 0, 0, 0],
        ]
        .concat(),
        kinds: rows.concat().concat(),
        depths: vec![0, 1, 0, 0, 1, 0, 0, 0, 0],
        ..Given::default()
    }
}

/// Case B: the branch passes the release.
fn b() -> Given {
    a().changed(|given| given.instructions[4 * 4 + 3] = 9)
}

#[test]
fn case_a_comes_out_as_the_document_has_it() {
    let wanted = lay_out(&[case_a()]);
    assert_eq!(wanted.len(), 133);
    for more in [0, 1, 1_000] {
        let (gated, out) = a().passed(133 + more);
        let verdict = Verdict::new(0, 1, 0);
        assert_eq!((gated.verdict, gated.length), (verdict, 133));
        assert_eq!(out[..133], wanted);
        assert_eq!(out[133..], vec![MARK; more]);
    }
}

/// Two classes: a return with an argument and a field, thrown are objects of it.
#[test]
fn records_in_class_order_then_directory_then_trailer() {
    let given = Given::default().and(0, 0, 1, 0, 1).and(1, 1, 0, 1, 1);
    let given = given.changed(|given| {
        given.exception = 1;
        given.descriptors = vec![1, 0xFF];
    });
    let wanted = [
        // Class 0: return, depth 0, an unused entry.
        vec![12, 0, 0, 0, 0, 0, 0, 0, 0],
        // Class 1: an argument of class 1, an integer field, return, Top, depth 0.
        vec![1, 0xFF, 12, 0, 0, 0, 2, 0, 0, 0, 0],
        // Offset, n, V, K, fields, k.
        vec![0, 0, 0, 0, 1, 0, 0, 1],
        vec![0, 9, 1, 1, 0, 1, 0, 1],
        // Directory offset, class count, exception class, length, mark.
        vec![0, 20, 2, 1, 0, 44, 0x4C, 0x4B],
    ]
    .concat();
    let (gated, out) = given.passed(44);
    assert_eq!((gated.verdict, gated.length), (Verdict::new(0, 2, 0), 44));
    assert_eq!(out, wanted);
    assert_eq!(verify(&out), Verdict::new(0, 2, 0));
}

#[test]
fn every_slice_too_short_or_too_long_is_27() {
    let given = a().and(1, 1, 0, 1, 2);
    assert_eq!(given.passed(1_000).0.verdict.number, 0);
    let slices: [fn(&mut Given) -> &mut Vec<u8>; 5] = [
        |given| &mut given.directory,
        |given| &mut given.descriptors,
        |given| &mut given.instructions,
        |given| &mut given.kinds,
        |given| &mut given.depths,
    ];
    for slice in slices {
        for more in [1, 6, 65_536] {
            let long = given.changed(|given| slice(given).extend(vec![0; more]));
            long.refused(27, 0, 0);
        }
        for less in [1, 2, usize::MAX] {
            let short = given.changed(|given| {
                let slice = slice(given);
                slice.truncate(slice.len().saturating_sub(less));
            });
            short.refused(27, 0, 0);
        }
    }
}

/// Of 257 a byte would be 1, of 2^32 - 1 it would be 255.
#[test]
fn class_counts_other_than_1_to_8_are_27() {
    Given::default().refused(27, 0, 0);
    for classes in [0, 2, 9, 255, 256, 257, 65_537, u32::MAX] {
        a().changed(|given| given.classes = classes)
            .refused(27, 0, 0);
    }
    let mut given = a();
    for classes in 1..=8 {
        let (gated, _) = given.passed(1_000);
        assert_eq!(gated.verdict, Verdict::new(0, classes, 0));
        given = given.and(0, 0, 0, 0, 1);
    }
    given.refused(27, 0, 0);
}

/// Numbers that do not match come before numbers over their limits, an exception
/// class that is none, and all else.
#[test]
fn lengths_come_first() {
    let wrong = b().changed(|given| {
        given.directory[1] = 17;
        given.exception = 5;
        given.instructions[0] = 0;
    });
    wrong.refused(27, 0, 0);
    a().changed(|given| given.directory[4] = 1)
        .refused(27, 0, 0);
}

#[test]
fn exception_classes_that_are_none_are_3() {
    for exception in [1, 255, 256, 65_536, 1 << 24, u32::MAX] {
        let given = a().changed(|given| given.exception = exception);
        given.refused(3, 0, 0);
        // 3 before 4, 7, 8 and 22.
        let worse = given.and(0, 17, 17, 5, 2).changed(|given| {
            given.exception = exception.max(2);
            given.instructions[0] = 0;
            given.depths[0] = 9;
        });
        worse.refused(3, 0, 0);
    }
}

/// 256 rows of V 16 and K 16 are 34,048 bytes with their instructions, 236 are
/// 31,388; with directory and trailer 67 are left for the third class: one
/// instruction of 57 bytes with 13 variables, and ten descriptors.
#[test]
fn up_to_65_535_bytes() {
    let two = Given::default()
        .and(0, 16, 16, 0, 256)
        .and(0, 16, 16, 0, 236);
    let full = two.and(6, 13, 0, 4, 1);
    let (gated, out) = full.passed(65_535);
    assert_eq!(gated.verdict, Verdict::new(0, 3, 0));
    assert_eq!((gated.length, out.len()), (65_535, 65_535));
    assert_eq!(verify(&out), Verdict::new(0, 3, 0));
    two.and(7, 13, 0, 4, 1).refused(1, 0, 0);
    // 13 more, of which two bytes would tell 13.
    let more = two.and(7, 13, 0, 4, 1).and(0, 0, 0, 0, 1);
    more.refused(1, 0, 0);
}

/// 1 before 3 and 4, up to the largest numbers: 65,535 rows with 510 entries are
/// 134,019,075 bytes with their instructions.
#[test]
fn too_long_comes_before_what_the_bundle_draws() {
    let given = Given::default().and(0, 255, 255, 255, 65_535);
    given.refused(1, 0, 0);
    given.changed(|given| given.exception = 7).refused(1, 0, 0);
    // 13,105 instructions of five bytes with their depths, in all 65,541.
    let long = Given::default().and(0, 0, 0, 0, 13_105);
    long.refused(1, 0, 0);
    Given::default().and(0, 0, 0, 0, 13_103).refused(4, 0, 0);
}

#[test]
fn numbers_over_their_limits_are_4() {
    let numbers = [
        (0, 17, 0, 0, 1),
        (0, 255, 0, 0, 1),
        (0, 0, 17, 0, 1),
        (0, 0, 255, 0, 1),
        (0, 0, 0, 5, 1),
        (0, 0, 0, 255, 1),
        (0, 0, 0, 0, 0),
        (0, 0, 0, 0, 257),
        (1, 0, 0, 0, 1),
        (255, 16, 0, 0, 1),
    ];
    for (n, v, k, fields, code) in numbers {
        a().and(n, v, k, fields, code).refused(4, 1, 0);
        Given::default().and(n, v, k, fields, code).refused(4, 0, 0);
    }
    // Main takes no argument.
    Given::default().and(1, 1, 0, 0, 1).refused(4, 0, 0);
}

#[test]
fn descriptors_class_by_class() {
    let bad = a().and(1, 1, 0, 1, 1);
    let bad = bad.changed(|given| given.descriptors[1] = 2);
    bad.refused(6, 1, 0);
    // 6 of class 1 before 4 of class 2, and behind 4 of class 0.
    bad.and(0, 17, 0, 0, 1)
        .changed(|given| given.descriptors[1] = 3)
        .refused(6, 1, 0);
    let first = Given::default().and(0, 0, 0, 0, 0).and(1, 1, 0, 0, 1);
    first
        .changed(|given| given.descriptors[0] = 9)
        .refused(4, 0, 0);
}

#[test]
fn instructions_then_rows_then_pairs() {
    let given = b().and(0, 1, 1, 0, 2);
    given.refused(22, 0, 0);
    let row = |given: &Given, at: usize| given.changed(|given| given.depths[at] = 2);
    // The rows of class 1 come behind nine of class 0.
    row(&given, 10).refused(8, 1, 2);
    row(&row(&given, 10), 3).refused(8, 0, 4);
    let code = |given: &Given, at: usize| given.changed(|given| given.instructions[4 * at] = 15);
    code(&row(&given, 3), 9).refused(7, 1, 1);
    code(&code(&given, 9), 8).refused(7, 0, 9);
}

#[test]
fn kinds_that_are_malformed() {
    // Row 3 of case A: variable 0, and a stack entry that is not in use.
    let bad: [(usize, [u8; 2]); 10] = [
        (0, [0, 0]),
        (0, [1, 1]),
        (0, [2, 1]),
        (0, [3, 1]),
        (0, [4, 1]),
        (0, [5, 0]),
        (0, [255, 255]),
        (1, [1, 0]),
        (1, [0, 1]),
        (1, [3, 0]),
    ];
    for (entry, kind) in bad {
        let at = 2 * (2 * 2 + entry);
        let given = a().changed(|given| given.kinds[at..at + 2].copy_from_slice(&kind));
        given.refused(8, 0, 3);
    }
    // Kind 4 is well formed, and no monitorexit takes it.
    let doubted = a().changed(|given| given.kinds[2 * 5 * 2] = 4);
    doubted.refused(22, 0, 0);
}

#[test]
fn room_comes_last() {
    for room in [0, 1, 132] {
        let (gated, out) = a().passed(room);
        let verdict = Verdict::new(24, 0, 0);
        assert_eq!(gated, Gated { verdict, length: 0 });
        assert_eq!(out, vec![MARK; room]);
    }
    b().refused(22, 0, 0);
}
