//! `take FILE OUT INDICES` on files, pipes, room, and bad command lines.

mod common;

use common::{root, run, tool, Ran};
use std::fs;
use std::path::PathBuf;

const GUARDED: &str = "cases/guarded.code";

/// The instructions of the case: 0 new #7, 3 astore_0, 4 aload_0 and
/// monitorenter, 6 new #9, which 20 handles, 9 pop, 10 iinc 1, 13 iload_1, 14
/// ifne 6, 17 aload_0 and monitorexit, 19 return, 20 astore_2, 21 aload_0 and
/// monitorexit, 23 aload_2, 24 athrow.
const INSTRUCTIONS: [[u8; 4]; 16] = [
    [9, 0, 0, 0],
    [5, 0, 0, 0],
    [7, 0, 0, 0],
    [9, 1, 0, 13],
    [2, 0, 0, 0],
    [4, 1, 0, 0],
    [1, 0, 0, 0],
    [5, 1, 0, 0],
    [4, 1, 0, 0],
    [6, 0, 0, 4],
    [8, 0, 0, 0],
    [12, 0, 0, 0],
    [5, 2, 0, 0],
    [8, 0, 0, 0],
    [4, 2, 0, 0],
    [11, 0, 0, 0],
];

/// A place for a test's output, with nothing there.
fn place(name: &str) -> String {
    let path = PathBuf::from(env!("CARGO_TARGET_TMPDIR")).join(name);
    let _ = fs::remove_file(&path);
    path.to_str().expect("a name").to_string()
}

fn says(ran: Ran, line: &str, status: i32) {
    let out = format!("{line}\n");
    let err = String::new();
    let status = Some(status);
    assert_eq!(ran, Ran { out, err, status });
}

#[test]
fn a_method_is_taken() {
    let out = place("taken");
    says(tool(&["take", GUARDED, &out, "7,9"], &[]), "taken 16", 0);
    assert_eq!(fs::read(&out).expect("a file"), INSTRUCTIONS.concat());
    // From a pipe, over what is there, with more behind the attribute.
    fs::write(&out, [1; 100]).expect("a file");
    let mut bytes = fs::read(root().join(GUARDED)).expect("a case");
    bytes.extend([0xFF; 70_000]);
    says(tool(&["take", "-", &out, "7,9,9,0"], &bytes), "taken 16", 0);
    assert_eq!(fs::read(&out).expect("a file"), INSTRUCTIONS.concat());
    // The script hands its words on.
    let words = ["take", GUARDED, &out, "3,9,7", "--room", "64"];
    let ran = run(root().join("hveitmar"), &words, &[]);
    assert_eq!((ran.out.as_str(), ran.status), ("taken 16\n", Some(0)));
    let taken = fs::read(&out).expect("a file");
    assert_eq!((taken[1], taken[13]), (2, 1));
}

#[test]
fn refusals_leave_the_output_alone() {
    let out = place("refused");
    let told: [(&[&str], &str); 6] = [
        (&["7"], "refused 31 offset 6"),
        (&[""], "refused 31 offset 0"),
        (&["1,2,3,4,5,6,7,8,9"], "refused 31 offset 6"),
        (&["7,9", "--room", "63"], "refused 34 offset 24"),
        (&["--room", "0", "7,9"], "refused 34 offset 0"),
        (&["7,9", "--room", "27"], "refused 34 offset 10"),
    ];
    for (words, line) in told {
        let words = [&["take", GUARDED, &out], words].concat();
        says(tool(&words, &[]), line, 1);
        assert!(!PathBuf::from(&out).exists());
    }
    says(
        tool(&["take", "-", &out, ""], &[]),
        "refused 30 offset 0",
        1,
    );
    // A branch astray: ifne at 0, to 1.
    let code = [0, 0, 0, 0, 0, 0, 0, 0, 0, 0, 0, 0, 0, 3, 0x9A, 0, 1, 0, 0];
    says(
        tool(&["take", "-", &out, ""], &code),
        "refused 32 offset 0",
        1,
    );
    // 257 instructions; what is there stays.
    let mut code = [&[0; 12][..], &[1, 1], &[0x57; 257], &[0, 0]].concat();
    fs::write(&out, "stays").expect("a file");
    says(
        tool(&["take", "-", &out, ""], &code),
        "refused 33 offset 256",
        1,
    );
    assert_eq!(fs::read(&out).expect("a file"), b"stays");
    // 256 need all the room that there is if nothing is said.
    code.remove(14);
    code[13] = 0;
    says(tool(&["take", "-", &out, ""], &code), "taken 256", 0);
    let more = ["take", "-", &out, "", "--room", "18446744073709551615"];
    says(tool(&more, &code), "taken 256", 0);
}

#[test]
fn bad_command_lines_and_files() {
    let out = place("none");
    let told: [(&[&str], &str); 12] = [
        (&["take"], "take: no file"),
        (&["take", GUARDED], "take: no OUT"),
        (&["take", GUARDED, &out], "take: no indices"),
        (
            &["take", GUARDED, &out, "7", "9"],
            "take: more than three words",
        ),
        (&["take", GUARDED, "-", "7"], "take: OUT is a file"),
        (&["take", GUARDED, &out, "7,"], "take: \"\" is no index"),
        (&["take", GUARDED, &out, "+7"], "take: \"+7\" is no index"),
        (
            &["take", GUARDED, &out, "65536"],
            "take: \"65536\" is no index",
        ),
        (
            &["take", GUARDED, &out, "7", "--room"],
            "take: --room wants",
        ),
        (
            &["take", GUARDED, &out, "7", "--room", "x"],
            "take: --room wants",
        ),
        (
            &["take", GUARDED, &out, "7", "--rooms", "9"],
            "take: unknown option --rooms",
        ),
        (
            &["take", "no such file", &out, "7"],
            "no such file: cannot be read",
        ),
    ];
    for (words, about) in told {
        let ran = tool(words, &[]);
        assert_eq!((ran.out.as_str(), ran.status), ("", Some(2)), "{ran:?}");
        assert!(
            ran.err.starts_with(&format!("hveitmar: {about}")),
            "{ran:?}"
        );
        assert_eq!(ran.err.lines().count(), 1, "{ran:?}");
        assert!(!PathBuf::from(&out).exists());
    }
    let ran = tool(&["take", GUARDED, "no such folder/out", "7,9"], &[]);
    assert_eq!((ran.out.as_str(), ran.status), ("", Some(2)), "{ran:?}");
    assert!(
        ran.err.contains("no such folder/out: cannot be written"),
        "{ran:?}"
    );
    // An option of one command is none of another.
    let ran = tool(&["usage", "--room"], &[]);
    assert!(ran.err.contains("unknown option --room"), "{ran:?}");
}
