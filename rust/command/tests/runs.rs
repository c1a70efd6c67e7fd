//! The command on generated bundles: it shows and explains them all, and its
//! traces have the reference's answers.

mod common;

use common::tool;
use generator::builder::{lay_out, Method, Row};
use generator::families::{self, typed};
use generator::rng::Rng;
use generator::schedule::schedule;
use reference::entries::Entry;
use reference::instructions::{Addr, Field, Instr, Var};
use reference::machine::fresh;
use trace::{follow, Input, Turn};

#[test]
fn generated_bundles_are_shown_and_explained() {
    for seed in 0..300 {
        let (family, bundle) = families::bundle(seed);
        let line = hveitmar::verify(&bundle).to_string();
        for command in ["show", "explain"] {
            let ran = tool(&[command, "-"], &bundle);
            assert!(
                ran.out.starts_with(&format!("-: {line}\n\n")),
                "seed {seed} {family:?} {ran:?}"
            );
            assert_eq!(ran.err, "", "seed {seed} {family:?}");
            assert!(ran.status < Some(2), "seed {seed} {family:?}");
        }
    }
}

/// The answers that a trace tells of, one for each step.
fn answers(text: &str) -> Vec<u8> {
    let table = text.split("\n\n").nth(1).expect("a table");
    let (heading, steps) = table.split_once('\n').unwrap_or((table, ""));
    let column = heading.find("answer").expect("the column");
    steps
        .lines()
        .map(|line| line[column..].split(' ').next().expect("a number"))
        .map(|number| number.parse().expect("a number"))
        .collect()
}

fn word(turn: Turn) -> String {
    format!("{}{}", turn.thread(), if turn.fails() { "!" } else { "" })
}

#[test]
fn traces_have_the_reference_s_answers() {
    for seed in 0..40 {
        let bundle = typed::well_typed(&mut Rng::new(seed));
        let turns = schedule(&bundle, &fresh(&bundle).1, seed, 25);
        let words: Vec<String> = turns.iter().map(|&byte| word(Turn(byte))).collect();
        let words: Vec<&str> = words.iter().map(String::as_str).collect();
        let ran = tool(&[&["trace", "-"], words.as_slice()].concat(), &bundle);
        let input = Input {
            bundle: &bundle,
            start: None,
            schedule: &turns,
        };
        let output = follow(&input);
        let wanted: Vec<u8> = output.steps.iter().map(|step| step.answer).collect();
        assert_eq!(answers(&ran.out), wanted, "seed {seed}");
    }
}

/// A lock read from a new object's field is null, and caught.
fn null_is_caught() -> Vec<u8> {
    let v = Var(0);
    let field = Field {
        class: 0,
        number: 0,
    };
    let (free, held) = (Entry::fresh(0), Entry::reference(0, 1, -1));
    let (top, null) = (Entry::Top, Entry::Nullable { class: 0 });
    let lines = [
        (Instr::New(0, None), Row::new(&[top], &[])),
        (Instr::Getfield(field, None), Row::new(&[top], &[free])),
        (Instr::Store(v), Row::new(&[top], &[null])),
        (Instr::Enter(v, Some(Addr(7))), Row::new(&[null], &[])),
        (Instr::Exit(v), Row::new(&[held], &[])),
        (Instr::Return, Row::new(&[free], &[])),
        (Instr::Pop, Row::new(&[null], &[free])),
        (Instr::Return, Row::new(&[null], &[])),
    ];
    let (code, rows) = lines.into_iter().unzip();
    lay_out(&[Method {
        fields: vec![0],
        variables: 1,
        stack_limit: 1,
        code,
        rows,
        ..Method::default()
    }])
}

#[test]
fn a_trace_tells_of_null() {
    let bundle = null_is_caught();
    let ran = tool(&["trace", "-", "0", "0", "0", "0", "0", "0"], &bundle);
    let told = "\
-: accepted classes 1

step  thread  class  address  instruction                object  holds  answer
1     0       0      1        new 0                      1       0      0 went on
2     0       0      2        getfield C0.0              1       0      0 went on
3     0       0      3        store 0                    null    0      0 went on
4     0       0      4        monitorenter 0, handler 7  null    0      0 went on
5     0       0      7        pop                        0       0      0 went on
6     0       0      8        return                     -       -      1 ended by return

no thread lives
";
    assert_eq!(ran.out, told);
    let shown = tool(&["show", "-"], &bundle).out;
    assert!(shown.contains("class 0: arguments none, fields C0, variables 1, stack 1"));
    assert!(shown.contains("monitorenter 0, handler 7  C0?"));
}

/// Two locks, the second taken twice, and all given back.
fn two_locks() -> Vec<u8> {
    let [v, w] = [Var(0), Var(1)];
    let (top, free) = (Entry::Top, Entry::fresh(0));
    let held = |times: i16| Entry::reference(0, times, -times);
    let row = |first, second| Row::new(&[first, second], &[]);
    let lines = [
        (Instr::New(0, None), row(top, top)),
        (Instr::Store(v), Row::new(&[top, top], &[free])),
        (Instr::New(0, None), row(free, top)),
        (Instr::Store(w), Row::new(&[free, top], &[free])),
        (Instr::Enter(v, None), row(free, free)),
        (Instr::Enter(w, None), row(held(1), free)),
        (Instr::Enter(w, None), row(held(1), held(1))),
        (Instr::Exit(v), row(held(1), held(2))),
        (Instr::Exit(w), row(free, held(2))),
        (Instr::Exit(w), row(free, held(1))),
        (Instr::Return, row(free, free)),
    ];
    let (code, rows) = lines.into_iter().unzip();
    lay_out(&[Method {
        variables: 2,
        stack_limit: 1,
        code,
        rows,
        ..Method::default()
    }])
}

#[test]
fn a_trace_tells_how_many_objects_are_held() {
    let bundle = two_locks();
    let trace = |steps: usize| {
        let words = [vec!["trace", "-"], vec!["0"; steps]].concat();
        let told = tool(&words, &bundle).out;
        let blocks: Vec<&str> = told.split("\n\n").collect();
        (blocks[1].to_string(), blocks[2].to_string())
    };
    let at = |address: u16| format!("thread 0 at address {address} of class 0 holds");
    let first = "  object 1: taken once, given back 0, count 1\n";
    let second =
        |back, count| format!("  object 2: taken 2 times, given back {back}, count {count}\n");
    let told = [
        (0, format!("{} nothing\n", at(1))),
        (5, format!("{} 1 object:\n{first}", at(6))),
        (7, format!("{} 2 objects:\n{first}{}", at(8), second(0, 2))),
        (8, format!("{} 1 object:\n{}", at(9), second(0, 2))),
        (9, format!("{} 1 object:\n{}", at(10), second(1, 1))),
        (11, "no thread lives\n".to_string()),
    ];
    for (steps, line) in told {
        assert_eq!(trace(steps).1, line, "{steps} steps");
    }
    let (table, _) = trace(11);
    let column = table.find("holds").expect("the column");
    let lines = table.lines().skip(1);
    let holds: Vec<&str> = lines.map(|line| &line[column..column + 1]).collect();
    let wanted = ["0", "0", "0", "0", "1", "2", "2", "1", "1", "0", "-"];
    assert_eq!(holds, wanted);
}
