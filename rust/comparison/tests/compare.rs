//! The program `compare` fails where it has not compared.

use std::process::{Command, Output};

fn compare(arguments: &[&str], trace: Option<&str>) -> Output {
    let mut command = Command::new(env!("CARGO_BIN_EXE_compare"));
    command.args(arguments);
    if let Some(program) = trace {
        command.env("HVEITMAR_TRACE", program);
    }
    command.output().expect("it runs")
}

fn said(output: &Output, words: &str) -> bool {
    String::from_utf8_lossy(&output.stdout).contains(words)
}

#[test]
fn without_a_trace_program() {
    let output = compare(&["100", "100"], Some("/no such program"));
    assert_eq!(output.status.code(), Some(1));
    assert!(said(&output, "there is no trace program /no such program"));
}

#[test]
fn with_another_program() {
    let output = compare(&["10", "10"], Some("/bin/true"));
    assert_eq!(output.status.code(), Some(1));
    assert!(said(&output, "DIFFERENCE trace seed 0"));
    assert!(said(&output, "DIFFERENCE step of the run of seed 0"));
}

#[test]
fn with_too_few_inputs() {
    let output = compare(&["10", "10"], None);
    assert_eq!(output.status.code(), Some(1));
    assert!(said(&output, "differences in all: 0"));
    assert!(said(&output, "NEVER SEEN: a 9 placed before a 10"));
}
