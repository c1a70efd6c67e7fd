//! `usage TEXT` on words, pipes, and texts that are none.

mod common;

use common::{root, run, tool, Ran};
use generator::texts::text;
use std::ffi::OsStr;
use std::fs::File;
use std::os::unix::ffi::OsStrExt;
use std::process::Command;
use usages::{answer, read};

/// This text as a word, and on standard input: this line, this status, and
/// on standard error this line or nothing.
fn says(text: &str, line: &str, status: i32, place: &str) {
    let err = match place {
        "" => String::new(),
        place => format!("hveitmar: no usage: {place}\n"),
    };
    let wanted = Ran {
        out: format!("{line}\n"),
        err,
        status: Some(status),
    };
    assert_eq!(tool(&["usage", text], &[]), wanted, "{text}");
    assert_eq!(tool(&["usage", "-"], text.as_bytes()), wanted, "{text}");
}

#[test]
fn usages_are_read() {
    says("L.L.(^L.0*^L.0)", "dip 0 end 0 reliable yes", 0, "");
    says("L.(L.0*^L.0)", "dip 0 end 1 reliable no", 0, "");
    says("L.^L.^L.0", "dip 1 end -1 reliable no", 0, "");
    says("0", "dip 0 end 0 reliable yes", 0, "");
}

#[test]
fn refusals() {
    let longest = "^L.0".to_string() + &"*0".repeat(126);
    assert_eq!(longest.len(), 256);
    says(&longest, "dip 1 end -1 reliable no", 0, "");
    let longer = "0".to_string() + &"*0".repeat(128);
    assert_eq!(longer.len(), 257);
    says(&longer, "refused 40", 1, "");
    says(&"x".repeat(70_000), "refused 40", 1, "");
    let deep = |pairs| "(".repeat(pairs) + "0" + &")".repeat(pairs);
    says(&deep(16), "dip 0 end 0 reliable yes", 0, "");
    says(&deep(17), "refused 42", 1, "");
    says(&("L.".repeat(64) + "0"), "refused 43", 1, "");
}

#[test]
fn the_first_wrong_byte_is_told() {
    let told = [
        ("", "byte 1 is missing, where 0, L, ^ or ( may stand"),
        ("L", "byte 2 is missing, where . may stand"),
        ("L.(0", "byte 5 is missing, where *, & or ) may stand"),
        ("L.(L.0*^l.0)", "byte 9 is l, where L may stand"),
        (
            "0 & 0",
            "byte 2 is a blank, where *, & or the end may stand",
        ),
        ("0\n", "byte 2 is \\n, where *, & or the end may stand"),
        (
            "0\u{2297}0",
            "byte 2 is \\xe2, where *, & or the end may stand",
        ),
    ];
    for (text, place) in told {
        says(text, "refused 41", 1, place);
    }
    let last = "0*".repeat(127) + "0L";
    says(
        &last,
        "refused 41",
        1,
        "byte 256 is L, where *, & or the end may stand",
    );
}

#[test]
fn bytes_that_are_no_text() {
    let ran = tool(&["usage", "-"], b"0\xFF\0");
    assert_eq!((ran.out.as_str(), ran.status), ("refused 41\n", Some(1)));
    assert!(ran.err.contains("byte 2 is \\xff"), "{ran:?}");
    let word = OsStr::from_bytes(b"L.\xFF");
    let output = Command::new(env!("CARGO_BIN_EXE_command"))
        .args([OsStr::new("usage"), word])
        .output()
        .expect("it runs");
    assert_eq!(output.stdout, b"refused 41\n");
    assert!(String::from_utf8_lossy(&output.stderr).contains("byte 3 is \\xff"));
}

#[test]
fn standard_input_that_cannot_be_read() {
    let output = Command::new(env!("CARGO_BIN_EXE_command"))
        .args(["usage", "-"])
        .stdin(File::open(root()).expect("a folder"))
        .output()
        .expect("it runs");
    assert_eq!((output.stdout, output.status.code()), (vec![], Some(2)));
    assert!(String::from_utf8_lossy(&output.stderr).starts_with("hveitmar: -: cannot be read"));
}

#[test]
fn bad_command_lines() {
    for (words, about) in [
        (&["usage"][..], "usage: no text"),
        (&["usage", "0", "0"], "usage: more than one text"),
        (&["usage", "-0"], "usage: unknown option -0"),
    ] {
        let ran = tool(words, &[]);
        assert_eq!((ran.out.as_str(), ran.status), ("", Some(2)), "{ran:?}");
        assert!(
            ran.err.starts_with(&format!("hveitmar: {about}; ")),
            "{ran:?}"
        );
        assert_eq!(ran.err.lines().count(), 1, "{ran:?}");
    }
}

#[test]
fn the_script_hands_the_text_on() {
    let text = "(L.0&0)*^L.0";
    for (words, input) in [(["usage", text], ""), (["usage", "-"], text)] {
        let ran = run(root().join("hveitmar"), &words, input.as_bytes());
        assert_eq!(
            (ran.out.as_str(), ran.status),
            ("dip 1 end 0 reliable no\n", Some(0))
        );
    }
}

/// The reference's line and place, on generated texts.
#[test]
fn generated_texts() {
    for seed in 0..400 {
        let (_, text) = text(seed);
        let ran = tool(&["usage", "-"], &text);
        let wanted = answer(&text);
        assert_eq!(ran.out, format!("{wanted}\n"), "seed {seed}");
        let place = read(&text).err().filter(|_| wanted.number == 41);
        match place {
            Some(wrong) => assert!(ran.err.contains(&format!("byte {} is", wrong.at + 1))),
            None => assert_eq!(ran.err, "", "seed {seed}"),
        }
    }
}
