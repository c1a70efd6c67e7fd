//! A run of the program itself, as a child process.

use std::io::{Error, ErrorKind, Write};
use std::path::{Path, PathBuf};
use std::process::{Command, Stdio};

/// The proved program `hveitmar_trace`.
#[derive(Clone, Debug, Default)]
pub struct Program(PathBuf);

impl Program {
    /// The program that HVEITMAR_TRACE names, or the one that
    /// `./hveitmar build` writes; an error says which is missing.
    pub fn find() -> Result<Program, Error> {
        let built = Path::new(env!("CARGO_MANIFEST_DIR")).join("../../target/bin/hveitmar_trace");
        let path = std::env::var_os("HVEITMAR_TRACE").map_or(built, PathBuf::from);
        match path.is_file() {
            true => Ok(Program(path)),
            false => Err(Error::new(
                ErrorKind::NotFound,
                format!("there is no trace program {}", path.display()),
            )),
        }
    }

    /// What it prints for this input. It may stop reading input that it finds
    /// too long.
    pub fn run(&self, input: &[u8]) -> Result<String, Error> {
        let mut child = Command::new(&self.0)
            .stdin(Stdio::piped())
            .stdout(Stdio::piped())
            .spawn()?;
        if let Some(mut stdin) = child.stdin.take() {
            match stdin.write_all(input) {
                Err(error) if error.kind() != ErrorKind::BrokenPipe => return Err(error),
                _ => {}
            }
        }
        let output = child.wait_with_output()?;
        if !output.status.success() {
            return Err(Error::other(output.status.to_string()));
        }
        String::from_utf8(output.stdout).map_err(Error::other)
    }
}
