//! What the tests of the command share.

use std::io::Write;
use std::path::{Path, PathBuf};
use std::process::{Command, Stdio};

/// What a run came to.
#[derive(Debug, PartialEq, Eq)]
pub struct Ran {
    pub out: String,
    pub err: String,
    pub status: Option<i32>,
}

/// The repository.
pub fn root() -> PathBuf {
    Path::new(env!("CARGO_MANIFEST_DIR")).join("../..")
}

/// Runs a program in the repository with these words and this standard input.
pub fn run(program: impl AsRef<Path>, words: &[&str], input: &[u8]) -> Ran {
    let mut child = Command::new(program.as_ref())
        .args(words)
        .current_dir(root())
        .stdin(Stdio::piped())
        .stdout(Stdio::piped())
        .stderr(Stdio::piped())
        .spawn()
        .expect("the program");
    // It may not read all of it, and a pipe that it has closed takes no more.
    let _ = child.stdin.take().expect("a pipe").write_all(input);
    let output = child.wait_with_output().expect("its output");
    let text = |bytes| String::from_utf8(bytes).expect("text");
    Ran {
        out: text(output.stdout),
        err: text(output.stderr),
        status: output.status.code(),
    }
}

/// Runs the built command.
#[allow(dead_code, reason = "not every test runs it")]
pub fn tool(words: &[&str], input: &[u8]) -> Ran {
    run(env!("CARGO_BIN_EXE_command"), words, input)
}
