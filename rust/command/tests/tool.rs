//! The built command on files, pipes and bad command lines.

mod common;

use common::{root, tool, Ran};
use std::fs;
use std::path::PathBuf;

const A: &str = "cases/a.bundle";
const B: &str = "cases/b.bundle";
const COMMANDS: [&str; 11] = [
    "check", "show", "explain", "fill", "order", "trace", "run", "methods", "take", "usage", "build",
];

/// A file of these bytes; its name is a test's own.
fn file(name: &str, bytes: &[u8]) -> String {
    let path = PathBuf::from(env!("CARGO_TARGET_TMPDIR")).join(name);
    fs::write(&path, bytes).expect("a file");
    path.to_str().expect("a name").to_string()
}

fn case(name: &str) -> Vec<u8> {
    fs::read(root().join("cases").join(name)).expect("a case")
}

/// Nothing on standard output, one line on standard error, status 2.
fn is_complaint(ran: &Ran, about: &str) {
    assert_eq!((ran.out.as_str(), ran.status), ("", Some(2)), "{ran:?}");
    assert_eq!(ran.err.lines().count(), 1, "{ran:?}");
    assert!(ran.err.starts_with("hveitmar: "), "{ran:?}");
    assert!(ran.err.contains(about), "{ran:?}");
}

#[test]
fn check_has_a_line_for_each_file_and_the_worst_status() {
    let a = format!("{A}: accepted classes 1\n");
    let b = format!("{B}: refused 9 class 0 address 5 why 3\n");
    let told: [(&[&str], String, i32); 5] = [
        (&["check", A], a.clone(), 0),
        (&["check", B], b.clone(), 1),
        (&["check", B, A], format!("{b}{a}"), 1),
        (&["check", "-"], "-: accepted classes 1\n".to_string(), 0),
        (&[A, B], format!("{a}{b}"), 1),
    ];
    for (words, out, status) in told {
        let ran = tool(words, &case("a.bundle"));
        let err = String::new();
        let status = Some(status);
        assert_eq!(ran, Ran { out, err, status }, "{words:?}");
    }
}

#[test]
fn a_file_that_cannot_be_read_does_not_keep_others_from_it() {
    let ran = tool(&["check", "no such file", A], &[]);
    assert_eq!(ran.out, format!("{A}: accepted classes 1\n"));
    assert_eq!(ran.err.lines().count(), 1);
    assert_eq!(ran.status, Some(2));
}

#[test]
fn files_that_cannot_be_read() {
    // Whoever reads the memory at address 0 fails, root too.
    for name in ["no such file", "cases", "/proc/self/mem"] {
        for command in ["check", "show", "explain", "order", "trace"] {
            is_complaint(&tool(&[command, name], &[]), name);
        }
    }
}

#[test]
fn bytes_that_are_no_bundle() {
    let line = "refused 1 class 0 address 0\n";
    let named = [
        (file("empty", &[]), "there are 0"),
        (file("seven", &[0; 7]), "there are 7"),
        (file("long", &[0; 65_536]), "there are more than 65535"),
    ];
    for (name, bytes) in &named {
        let ran = tool(&["check", name], &[]);
        assert_eq!((ran.out, ran.status), (format!("{name}: {line}"), Some(1)));
        for command in ["show", "explain"] {
            let ran = tool(&[command, name], &[]);
            assert!(ran.out.starts_with(&format!("{name}: {line}")), "{ran:?}");
            assert!(ran.out.contains(bytes), "{ran:?}");
            assert_eq!((ran.err.as_str(), ran.status), ("", Some(1)));
        }
        let ran = tool(&["trace", name, "0"], &[]);
        assert!(ran.out.ends_with("answer 17: the bundle can't be run\n"));
        assert_eq!(ran.status, Some(1));
    }
}

#[test]
fn the_longest_bundle_is_read_whole() {
    let mut bytes = vec![0; 65_535];
    bytes[65_533..].copy_from_slice(&[0x4C, 0x4B]);
    let ran = tool(&["explain", "-"], &bytes);
    assert!(ran
        .out
        .contains("The length says 0, and there are 65535 bytes."));
}

#[test]
fn pipes() {
    for command in ["show", "explain", "trace"] {
        let piped = tool(&[command, "-"], &case("a.bundle"));
        let read = tool(&[command, A], &[]);
        assert_eq!(piped.out.replacen("-:", &format!("{A}:"), 1), read.out);
        assert_eq!((piped.status, read.status), (Some(0), Some(0)));
    }
}

#[test]
fn bad_command_lines() {
    is_complaint(&tool(&[], &[]), "no command");
    is_complaint(&tool(&["no-such"], &[]), "neither a command nor a file");
    is_complaint(&tool(&["check"], &[]), "no file");
    is_complaint(&tool(&["check", "--fast", A], &[]), "unknown option --fast");
    is_complaint(&tool(&["show"], &[]), "no file");
    is_complaint(&tool(&["show", A, B], &[]), "more than one file");
    is_complaint(&tool(&["trace"], &[]), "no file");
    is_complaint(&tool(&["trace", A, "0", "x"], &[]), "x is no step");
    is_complaint(&tool(&["trace", A, "16"], &[]), "16 is no step");
    is_complaint(&tool(&["build", A], &[]), "it takes no words");
}

#[test]
fn every_command_has_help() {
    let overview = tool(&["--help"], &[]);
    assert_eq!((overview.err.as_str(), overview.status), ("", Some(0)));
    for command in COMMANDS {
        let ran = tool(&[command, "--help"], &[]);
        assert!(ran.out.starts_with(&format!("hveitmar {command}")));
        assert!(ran.out.contains("Status 0"), "{ran:?}");
        assert_eq!((ran.err.as_str(), ran.status), ("", Some(0)));
        assert!(overview.out.contains(&format!("hveitmar {command}")));
    }
    for command in ["explain", "order", "trace", "run", "methods", "usage"] {
        let help = tool(&[command, "--help"], &[]).out;
        assert!(help.contains("tested, not proved"));
    }
}

#[test]
fn build_prints_nothing() {
    let ran = tool(&["build"], &[]);
    assert_eq!((ran.out.as_str(), ran.status), ("", Some(0)));
}
