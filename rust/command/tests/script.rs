//! The script at the root, on what is built already.

mod common;

use common::{root, run};

#[test]
fn without_words_it_is_the_program_on_standard_input() {
    let a = std::fs::read(root().join("cases/a.bundle")).expect("a case");
    for (input, line, status) in [
        (a.as_slice(), "accepted classes 1\n", 0),
        (&[], "refused 1 class 0 address 0\n", 1),
        (&[0; 70_000], "refused 1 class 0 address 0\n", 1),
    ] {
        let ran = run("./hveitmar", &[], input);
        assert_eq!((ran.out.as_str(), ran.status), (line, Some(status)));
    }
}

#[test]
fn with_words_it_is_the_command() {
    let ran = run("./hveitmar", &["check", "cases/b.bundle"], &[]);
    let line = "cases/b.bundle: refused 9 class 0 address 5 why 3\n";
    assert_eq!((ran.out.as_str(), ran.status), (line, Some(1)));
    let short = run("./hveitmar", &["cases/b.bundle"], &[]);
    assert_eq!((short.out.as_str(), short.status), (line, Some(1)));
    let unknown = run("./hveitmar", &["no-such"], &[]);
    assert_eq!((unknown.out.as_str(), unknown.status), ("", Some(2)));
}

#[test]
fn its_copy_is_the_trace_program() {
    let text = |name| std::fs::read(root().join(name)).expect("a script");
    assert_eq!(text("hveitmar"), text("hveitmar_trace"));
    let ran = run("./hveitmar_trace", &[], &[0, 0, 0]);
    assert!(ran.out.starts_with("fresh 17\nthread 0 live 0"), "{ran:?}");
    let bad = run("./hveitmar_trace", &[], &[]);
    assert_eq!((bad.out.as_str(), bad.status), ("bad input\n", Some(0)));
}
