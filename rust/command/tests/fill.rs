//! `fill FILE OUT`: its lines, statuses and files, worked out by hand, and those
//! of generated bundles by the second implementation.

mod common;

use common::{root, tool, Ran};
use generator::pairs::unpaired;
use reference::fill::fill;
use std::fs;
use std::path::PathBuf;

const A: &str = "cases/a.bundle";
const B: &str = "cases/b.bundle";

/// A file of this test's own.
fn path(name: &str) -> String {
    let path = PathBuf::from(env!("CARGO_TARGET_TMPDIR")).join(name);
    path.to_str().expect("a name").to_string()
}

fn case(name: &str) -> Vec<u8> {
    fs::read(root().join(name)).expect("a case")
}

/// Case A with the pair bytes of variable 0 wiped, from row 3 on.
fn wiped() -> Vec<u8> {
    let mut bytes = case(A);
    for row in 2..9 {
        bytes[36 + 9 * row + 2..36 + 9 * row + 4].fill(0);
    }
    bytes
}

fn done(out: &str, status: i32) -> Ran {
    Ran {
        out: out.to_string(),
        err: String::new(),
        status: Some(status),
    }
}

#[test]
fn case_a_comes_back() {
    let (file, out) = (path("fill-wiped"), path("fill-out"));
    fs::write(&file, wiped()).expect("a file");
    let filled = done("filled classes 1\n", 0);
    assert_eq!(tool(&["fill", &file, &out], &[]), filled);
    assert_eq!(fs::read(&out).expect("OUT"), case(A));
    // From a pipe, and into the file that it came from.
    assert_eq!(tool(&["fill", "-", &out], &wiped()), filled);
    assert_eq!(fs::read(&out).expect("OUT"), case(A));
    assert_eq!(tool(&["fill", &file, &file], &[]), filled);
    assert_eq!(fs::read(&file).expect("OUT"), case(A));
}

/// OUT is left alone, and is not made.
#[test]
fn refused_bundles() {
    let (there, not_there) = (path("fill-there"), path("fill-not-there"));
    fs::write(&there, b"as it was").expect("a file");
    let none = done("refused 22 class 0 address 0\n", 1);
    assert_eq!(tool(&["fill", B, &there], &[]), none);
    assert_eq!(tool(&["fill", B, &not_there], &[]), none);
    let empty = done("refused 1 class 0 address 0\n", 1);
    assert_eq!(tool(&["fill", "-", &there], &[]), empty);
    // An unused entry of row 4 has a pair.
    let mut malformed = wiped();
    malformed[36 + 27 + 5 + 2] = 1;
    let row = done("refused 8 class 0 address 4\n", 1);
    assert_eq!(tool(&["fill", "-", &there], &malformed), row);
    assert_eq!(fs::read(&there).expect("OUT"), b"as it was");
    assert!(!PathBuf::from(not_there).exists());
}

#[test]
fn bad_command_lines_and_files() {
    let complaints: [(&[&str], &str); 6] = [
        (&["fill"], "no file"),
        (&["fill", A], "no file to write"),
        (&["fill", A, B, A], "more than two files"),
        (&["fill", A, "-"], "OUT can't be standard output"),
        (
            &["fill", "no such file", "x"],
            "no such file: cannot be read",
        ),
        (&["fill", A, "/no such folder/x"], "cannot be written"),
    ];
    for (words, about) in complaints {
        let ran = tool(words, &[]);
        assert_eq!((ran.out.as_str(), ran.status), ("", Some(2)), "{ran:?}");
        assert_eq!(ran.err.lines().count(), 1, "{ran:?}");
        assert!(ran.err.contains(about), "{ran:?}");
    }
}

#[test]
fn explained() {
    let ran = tool(&["explain", B, "fill"], &[]);
    let line = format!("{B}: refused 22 class 0 address 0\n\nNo pairs make the verifier accept.");
    assert!(ran.out.starts_with(&line), "{ran:?}");
    assert_eq!((ran.err.as_str(), ran.status), ("", Some(1)));
    let ran = tool(&["explain", "-", "fill"], &wiped());
    assert_eq!(ran, done("-: filled classes 1\n\nPairs are found.\n", 0));
}

#[test]
fn generated_bundles() {
    let out = path("fill-generated");
    for seed in 0..100 {
        let bundle = unpaired(seed).bundle;
        fs::write(&out, b"as it was").expect("a file");
        let mut wanted = bundle.clone();
        let answer = fill(&mut wanted);
        let line = match answer.number {
            0 => done(&format!("filled classes {}\n", answer.class), 0),
            _ => done(&format!("{answer}\n"), 1),
        };
        assert_eq!(tool(&["fill", "-", &out], &bundle), line, "seed {seed}");
        let left = match answer.number {
            0 => wanted,
            _ => b"as it was".to_vec(),
        };
        assert_eq!(fs::read(&out).expect("OUT"), left, "seed {seed}");
    }
}
