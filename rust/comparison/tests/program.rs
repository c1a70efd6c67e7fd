//! The proved program's one line, held against the reference's.

use generator::builder::{case_a, lay_out};
use generator::families;
use reference::bundle::{Addr, Instr};
use reference::entries::Entry;
use reference::verify::verify;
use std::io::Write;
use std::path::Path;
use std::process::{Command, Stdio};

/// What the program prints for these bytes on its standard input.
fn line(bundle: &[u8]) -> String {
    let program = Path::new(env!("CARGO_MANIFEST_DIR")).join("../../target/bin/hveitmar");
    let mut child = Command::new(&program)
        .stdin(Stdio::piped())
        .stdout(Stdio::piped())
        .spawn()
        .unwrap_or_else(|e| panic!("{}: {e}: run `./hveitmar build` first", program.display()));
    let mut input = child.stdin.take().expect("a pipe");
    // It reads no further than it needs to refuse, and a pipe that it has closed takes no more.
    let _ = input.write_all(bundle);
    drop(input);
    let output = child.wait_with_output().expect("its output");
    String::from_utf8(output.stdout).expect("text")
}

#[test]
fn cases_print_as_told() {
    let mut b = case_a();
    b.code[4] = Instr::If(Addr(9));
    let mut c = b.clone();
    c.rows[8].variables[0] = Entry::reference(0, 1, -1);
    let told = [
        (lay_out(&[case_a()]), "accepted classes 1\n"),
        (lay_out(&[b]), "refused 9 class 0 address 5 why 3\n"),
        (lay_out(&[c]), "refused 9 class 0 address 8 why 2\n"),
        (vec![], "refused 1 class 0 address 0\n"),
        (vec![0; 70_000], "refused 1 class 0 address 0\n"),
    ];
    for (bundle, text) in told {
        assert_eq!(line(&bundle), text);
    }
}

#[test]
fn generated_bundles_print_the_reference_s_line() {
    let mut seen = [0; 11];
    for seed in 0..1_000 {
        let (family, bundle) = families::bundle(seed);
        let verdict = verify(&bundle);
        assert_eq!(
            line(&bundle),
            format!("{verdict}\n"),
            "seed {seed} {family:?}"
        );
        seen[usize::from(verdict.number)] += 1;
    }
    assert!(seen.iter().all(|&count| count > 0), "{seen:?}");
}
