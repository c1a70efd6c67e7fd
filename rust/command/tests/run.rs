//! `run FILE SCHEDULE`: its lines and statuses, worked out by hand, and those of
//! generated bundles by the second implementation.

mod common;

use common::{root, tool, Ran};
use generator::families;
use generator::rng::Rng;
use reference::run::run;
use std::fs;
use std::path::PathBuf;
use trace::state_text;

const A: &str = "cases/a.bundle";
const B: &str = "cases/b.bundle";

/// A file of these bytes; its name is a test's own.
fn file(name: &str, bytes: &[u8]) -> String {
    let path = PathBuf::from(env!("CARGO_TARGET_TMPDIR")).join(name);
    fs::write(&path, bytes).expect("a file");
    path.to_str().expect("a name").to_string()
}

fn case(name: &str) -> Vec<u8> {
    fs::read(root().join(name)).expect("a case")
}

/// So many of a word, with blanks between.
fn times(count: usize, word: &str) -> String {
    vec![word; count].join(" ")
}

/// A thread that is not live, and of which nothing is left.
fn gone(number: usize) -> String {
    let (values, counts) = (times(16, "i0"), times(32, "0"));
    format!(
        "thread {number} live 0 class 0 address 0 depth 0 vars {values} stack {values} \
         counts {counts} held 0\n"
    )
}

/// Threads that are gone, from this number on; then the objects, all of class
/// 0, and their fields, of which there are none.
fn end(from: usize, objects: usize) -> String {
    let gone: String = (from..8).map(gone).collect();
    let (classes, fields) = (times(32, "0"), times(128, "i0"));
    format!("{gone}objects {objects} classes {classes}\nfields {fields}\n")
}

fn done(out: String, status: i32) -> Ran {
    let err = String::new();
    let status = Some(status);
    Ran { out, err, status }
}

#[test]
fn case_a_to_its_end() {
    let schedule = file("run-eight", &[0; 8]);
    let out = format!("ran 7\n{}", end(0, 2));
    assert_eq!(tool(&["run", A, &schedule], &[]), done(out, 0));
}

/// Three steps: object 1 is in variable 0, and its lock is taken. Bits 3 to 6
/// say nothing, and threads 1 and 7 were never started.
#[test]
fn case_a_with_its_lock_held() {
    let schedule = file("run-three", &[0x08, 0x01, 0x70, 0x7F, 0x78]);
    let rest = times(15, "i0");
    let (stack, counts) = (times(16, "i0"), times(30, "0"));
    let thread = format!(
        "thread 0 live 1 class 0 address 4 depth 0 vars r1 {rest} stack {stack} \
         counts 0 1 {counts} held 2\n"
    );
    let out = format!("ran 3\n{thread}{}", end(1, 2));
    assert_eq!(tool(&["run", A, &schedule], &[]), done(out, 0));
}

#[test]
fn a_failed_allocation() {
    // Nobody catches it: thread 0 ends, and only object 0 is there.
    let schedule = file("run-failed", &[0x80, 0]);
    let out = format!("ran 1\n{}", end(0, 1));
    assert_eq!(tool(&["run", A, &schedule], &[]), done(out, 0));
}

#[test]
fn an_empty_schedule() {
    let schedule = file("run-empty", &[]);
    let (values, counts) = (times(16, "i0"), times(32, "0"));
    let thread = format!(
        "thread 0 live 1 class 0 address 1 depth 0 vars {values} stack {values} \
         counts {counts} held 0\n"
    );
    let out = format!("ran 0\n{thread}{}", end(1, 1));
    assert_eq!(tool(&["run", A, &schedule], &[]), done(out, 0));
}

#[test]
fn refused_bundles() {
    let schedule = file("run-refused", &[0; 3]);
    let state = end(0, 0);
    let out = format!("refused 19 verdict 9 class 0 address 5 why 3\n{state}");
    assert_eq!(tool(&["run", B, &schedule], &[]), done(out, 1));
    // Without a why: no bundle at all.
    let out = format!("refused 19 verdict 1 class 0 address 0\n{state}");
    assert_eq!(tool(&["run", "-", &schedule], &[]), done(out, 1));
}

#[test]
fn pipes() {
    let schedule = file("run-piped", &[0; 5]);
    let read = tool(&["run", A, &schedule], &[]);
    assert_eq!(tool(&["run", "-", &schedule], &case(A)), read);
    assert_eq!(tool(&["run", A, "-"], &[0; 5]), read);
    assert!(read.out.starts_with("ran 5\n"));
}

/// Longer than what is read of a bundle, and longer than a trace may be.
#[test]
fn a_long_schedule_is_run_whole() {
    let mut schedule = vec![1; 100_000];
    schedule.push(0);
    let ran = tool(&["run", A, "-"], &schedule);
    assert!(ran.out.starts_with("ran 1\n"), "{ran:?}");
}

#[test]
fn bad_command_lines_and_files() {
    let complaints: [(&[&str], &str); 6] = [
        (&["run"], "no file"),
        (&["run", A], "no schedule"),
        (&["run", A, B, A], "more than two files"),
        (&["run", "-", "-"], "standard input can't be both files"),
        (&["run", "no such file", A], "no such file: cannot be read"),
        (&["run", A, "no such file"], "no such file: cannot be read"),
    ];
    for (words, about) in complaints {
        let ran = tool(words, &[]);
        assert_eq!((ran.out.as_str(), ran.status), ("", Some(2)), "{ran:?}");
        assert_eq!(ran.err.lines().count(), 1, "{ran:?}");
        assert!(ran.err.contains(about), "{ran:?}");
    }
    // A device that never ends is no schedule.
    let ran = tool(&["run", A, "/dev/zero"], &[]);
    assert_eq!(ran.err, "hveitmar: /dev/zero: more than 67108864 steps\n");
    assert_eq!(ran.status, Some(2));
}

#[test]
fn generated_bundles() {
    for seed in 0..100 {
        let (_, bundle) = families::bundle(seed);
        let list = Rng::new(seed).bytes(40);
        let wanted = run(&bundle, &list);
        let schedule = file(&format!("run-generated-{seed}"), &list);
        let ran = tool(&["run", "-", &schedule], &bundle);
        let (_, state) = ran.out.split_once('\n').expect("a line");
        assert_eq!(state, state_text(&wanted.state), "seed {seed}");
        assert_eq!(ran.status, Some(i32::from(wanted.verdict.number != 0)));
        fs::remove_file(schedule).expect("a file");
    }
}
