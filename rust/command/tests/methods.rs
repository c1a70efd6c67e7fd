//! `methods FILE` on what javac wrote. The answers are worked out by hand from
//! request Q-9 and from what `javap -c` prints of these classes.

mod common;

use common::{root, tool};
use std::fs;

/// The methods of the class with what is said of each, by the words of the
/// listing's lines: name, and the last column.
fn answers(class: &str) -> Vec<(String, String)> {
    let ran = tool(&["methods", &format!("cases/java/{class}.class")], &[]);
    assert_eq!((ran.err.as_str(), ran.status), ("", Some(0)));
    let (_, table) = ran.out.split_once("method ").expect("a table");
    let (heading, lines) = table.split_once('\n').expect("a heading");
    let last = "method ".len() + heading.find("take").expect("the column");
    let line = |line: &str| {
        let name = line.split(' ').next().expect("a name");
        (name.to_string(), line[last..].to_string())
    };
    lines.lines().map(line).collect()
}

fn are(class: &str, wanted: &[(&str, &str)]) {
    let wanted = wanted
        .iter()
        .map(|&(name, said)| (name.to_string(), said.to_string()));
    assert_eq!(answers(class), wanted.collect::<Vec<_>>());
}

#[test]
fn loops_branches_and_throws() {
    let one = "(Ljava/lang/RuntimeException;)V";
    let two = "(Ljava/lang/RuntimeException;I)V";
    are(
        "Counts",
        &[
            ("<init>()V", "31 at 1: invokespecial"),
            ("nothing()V", "taken 1"),
            // Two iincs of three each, and return.
            ("twice(I)V", "taken 7"),
            ("untilZero(I)V", "taken 6"),
            ("either(II)V", "taken 10"),
            ("copies(IIII)V", "taken 7"),
            ("whileZero(I)V", "31 at 7: goto"),
            ("byTwo(I)V", "31 at 3: iinc"),
            ("byMinusOne(I)V", "31 at 0: iinc"),
            ("same(I)I", "31 at 1: ireturn"),
            (&format!("thrown{one}"), "taken 2"),
            (&format!("caught{two}"), "taken 7"),
            (&format!("caughtByEither{two}"), "31 at 9: goto"),
            (&format!("atLast{two}"), "taken 8"),
        ],
    );
}

/// javac copies the lock before it takes it, so no synchronized block of its
/// own is taken; a synchronized method has no lock instruction.
#[test]
fn locks() {
    let object = "Ljava/lang/Object;";
    are(
        "Locks",
        &[
            ("<init>()V", "31 at 1: invokespecial"),
            (&format!("once({object})V"), "31 at 1: dup"),
            (&format!("nested({object}{object})V"), "31 at 1: dup"),
            (&format!("again({object}I)V"), "31 at 4: dup"),
            ("counted()V", "31 at 1: getfield"),
            ("whole()V", "taken 1"),
            (&format!("kept({object}I)V"), "31 at 5: dup"),
            ("elsewhere()V", "no code"),
        ],
    );
}

#[test]
fn objects_and_fields() {
    are(
        "Things",
        &[
            ("<init>()V", "31 at 1: invokespecial"),
            ("made()V", "31 at 3: dup"),
            ("put(LThings;)V", "31 at 2: putfield"),
            ("got(LThings;)V", "31 at 1: getfield"),
            ("called(LThings;)V", "31 at 1: invokevirtual"),
            ("thrownAnew()V", "31 at 3: dup"),
            ("later()V", "no code"),
        ],
    );
    // javap shows new #2 and new #20.
    let ran = tool(&["methods", "cases/java/Things.class"], &[]);
    let made = "classes: 2 java/lang/Object, 20 java/lang/IllegalStateException\n";
    assert!(ran.out.contains(made), "{}", ran.out);
}

/// The offset that is listed is where take finds the attribute.
#[test]
fn take_reads_from_the_offset_on() {
    let bytes = fs::read(root().join("cases/java/Counts.class")).expect("a case");
    let ran = tool(&["methods", "-"], &bytes);
    assert!(ran
        .out
        .starts_with("-: class Counts, version 61.0\n\nclasses: none\n\n"));
    let line = ran.out.lines().find(|line| line.starts_with("caught("));
    let words: Vec<&str> = line.expect("a method").split_whitespace().collect();
    assert_eq!(words[2..], ["7", "taken", "7"]);
    let offset: usize = words[1].parse().expect("an offset");
    let out = format!("{}/caught", env!("CARGO_TARGET_TMPDIR"));
    let ran = tool(&["take", "-", &out, ""], &bytes[offset..]);
    assert_eq!(ran.out, "taken 7\n");
    // aload_0, athrow to astore_2, iinc 1, return.
    let wanted = [
        [4, 0, 0, 0],
        [11, 0, 0, 3],
        [5, 2, 0, 0],
        [4, 1, 0, 0],
        [1, 0, 0, 0],
        [5, 1, 0, 0],
        [12, 0, 0, 0],
    ];
    assert_eq!(fs::read(out).expect("a file"), wanted.concat());
}

/// The offenders of the other refusals, in a class whose code was changed.
#[test]
fn places_that_go_astray() {
    let bytes = fs::read(root().join("cases/java/Counts.class")).expect("a case");
    let changed = |code: &[u8], at: usize, byte: u8| {
        let mut places = bytes.windows(code.len());
        let begin = places.position(|window| window == code).expect("the code");
        let mut changed = bytes.clone();
        changed[begin + at] = byte;
        tool(&["methods", "-"], &changed).out
    };
    // untilZero: its ifne at 4 goes to 1; its iinc is another opcode.
    let until_zero = [0x84, 0, 1, 0x1A, 0x9A, 0xFF, 0xFC, 0xB1];
    assert!(changed(&until_zero, 6, 0xFD).contains(" 32 at 4: ifne\n"));
    assert!(changed(&until_zero, 0, 0xFE).contains(" 31 at 0: opcode 254\n"));
    // caught: its handler is at 3, where iinc begins, then at 4.
    let caught = [0x2A, 0xBF, 0x4D, 0x84, 1, 1, 0xB1, 0, 1, 0, 0, 0, 2, 0, 2];
    assert_eq!(changed(&caught, 14, 3).matches("taken 7").count(), 3);
    assert!(changed(&caught, 14, 4).contains(" 32 at 4: handler\n"));
    assert!(changed(&caught, 13, 9).contains(" 32 at 2306: handler\n"));
}

#[test]
fn damaged_files() {
    let bytes = fs::read(root().join("cases/java/Locks.class")).expect("a case");
    for (bytes, about) in [
        (&bytes[..300], "-: damaged at "),
        (&bytes[..0], "-: damaged at 0: the file ends"),
        (
            b"PK\x03\x04",
            "-: damaged at 0: it does not begin as a class file",
        ),
    ] {
        let ran = tool(&["methods", "-"], bytes);
        assert_eq!((ran.out.as_str(), ran.status), ("", Some(2)), "{ran:?}");
        assert!(
            ran.err.starts_with(&format!("hveitmar: {about}")),
            "{ran:?}"
        );
        assert_eq!(ran.err.lines().count(), 1, "{ran:?}");
    }
    for (words, about) in [
        (&["methods"][..], "methods: no file"),
        (&["methods", "a", "b"], "methods: more than one file"),
        (&["methods", "no such file"], "no such file: cannot be read"),
    ] {
        let ran = tool(words, &[]);
        assert_eq!((ran.out.as_str(), ran.status), ("", Some(2)), "{ran:?}");
        assert!(
            ran.err.starts_with(&format!("hveitmar: {about}")),
            "{ran:?}"
        );
    }
}
