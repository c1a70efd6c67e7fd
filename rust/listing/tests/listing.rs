//! Listings of bundles made by hand and of generated ones.

use generator::builder::{lay_out, Draft, Method, Row};
use generator::families;
use listing::Program;
use reference::bundle::INT;
use reference::entries::Entry;
use reference::instructions::{Addr, Field, Instr, Var};
use reference::verify::verify;

fn bundle() -> Vec<u8> {
    let held = Entry::reference(1, 2, -3);
    let main = Method {
        variables: 1,
        stack_limit: 2,
        code: vec![
            Instr::New(1, Some(Addr(3))),
            Instr::Start(1),
            Instr::Athrow(None),
        ],
        rows: vec![
            Row::new(&[Entry::Top], &[]),
            Row::new(&[held], &[Entry::Int, Entry::fresh(0)]),
            Row::new(&[Entry::Int], &[Entry::fresh(1)]),
        ],
        ..Method::default()
    };
    let other = Method {
        arguments: vec![INT, 0],
        variables: 2,
        stack_limit: 0,
        code: vec![Instr::Load(Var(1)), Instr::Return],
        rows: vec![Row::new(&[Entry::Int, Entry::Top], &[]); 2],
        ..Method::default()
    };
    let draft = Draft {
        methods: vec![main, other],
        exception: 1,
    };
    draft.lay_out()
}

#[test]
fn every_class_is_listed() {
    let listed = "\
thrown: class 1

class 0: arguments none, variables 1, stack 2
  1  new 1, handler 3  Top       |
  2  start 1           C1(2,-3)  | Int C0(0,0)
  3  athrow            Int       | C1(0,0)

class 1: arguments Int C0, variables 2, stack 0
  1  load 1  Int Top  |
  2  return  Int Top  |
";
    assert_eq!(Program::new(&bundle()).to_string(), listed);
}

#[test]
fn what_is_malformed_is_listed_too() {
    let mut bundle = bundle();
    bundle[0] = 15; // the first opcode
    bundle[12] = 9; // the first kind
    bundle[16] = 3; // the first depth, above K
    bundle[29] = 1; // the second row's depth
    let text = Program::new(&bundle).to_string();
    let lines: Vec<&str> = text.lines().skip(3).take(2).collect();
    let first = "1  none[0F 01 00 03]  malformed[09 00 00 00]  | blank blank (depth 3, limit 2)";
    assert_eq!(lines[0].trim(), first);
    assert!(lines[1].ends_with("| Int (unused: C0(0,0))"), "{text}");
}

#[test]
fn fields_and_null_are_listed() {
    let field = Field {
        class: 0,
        number: 1,
    };
    let method = Method {
        fields: vec![INT, 0],
        variables: 1,
        stack_limit: 2,
        code: vec![
            Instr::Getfield(field, None),
            Instr::Putfield(field, Some(Addr(4))),
            Instr::Enter(Var(0), Some(Addr(4))),
            Instr::Return,
        ],
        rows: vec![
            Row::new(&[Entry::Nullable { class: 0 }], &[]),
            Row::new(&[Entry::Top], &[Entry::Nullable { class: 0 }]),
            Row::new(&[Entry::Top], &[]),
            Row::new(&[Entry::Top], &[]),
        ],
        ..Method::default()
    };
    let listed = "\
thrown: class 0

class 0: arguments none, fields Int C0, variables 1, stack 2
  1  getfield C0.1              C0?  |
  2  putfield C0.1, handler 4   Top  | C0?
  3  monitorenter 0, handler 4  Top  |
  4  return                     Top  |
";
    let bundle = lay_out(&[method]);
    assert_eq!(Program::new(&bundle).to_string(), listed);
}

/// Whatever the verdict behind the container is.
#[test]
fn generated_bundles_are_listed() {
    for seed in 0..3_000 {
        let (family, bundle) = families::bundle(seed);
        let verdict = verify(&bundle);
        if (1..=6).contains(&verdict.number) {
            continue;
        }
        let program = Program::new(&bundle);
        let rows: usize = program.methods().map(|m| m.addresses().count()).sum();
        let headings = 1 + 2 * program.methods().count();
        let lines = program.to_string().lines().count();
        assert_eq!(lines, headings + rows, "seed {seed} {family:?}");
    }
}
