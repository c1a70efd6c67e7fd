//! The Java side: the probe compiled, and the class with the methods run.

use crate::code::Done;
use std::io::Error;
use std::path::{Path, PathBuf};
use std::process::Command;

/// What a method's probes told, and how it ended.
pub struct Told {
    /// What was done, and what was seen then.
    pub probes: Vec<(Done, String)>,
    pub end: End,
}

#[derive(Clone, Copy, Debug, PartialEq, Eq)]
pub enum End {
    Returned,
    Uncaught,
    /// It would have gone on.
    Enough,
}

/// Runs each method with its arguments.
pub fn run<'a>(class: &[u8], words: impl Iterator<Item = &'a str>) -> Result<Vec<Told>, Error> {
    let here = Path::new(env!("CARGO_MANIFEST_DIR"));
    let folder: PathBuf = here.join("../target/jvm");
    std::fs::create_dir_all(&folder)?;
    std::fs::write(folder.join("Taken.class"), class)?;
    let source = here.join("java/Probe.java");
    said(Command::new("javac").arg("-d").arg(&folder).arg(source))?;
    // Objects without a constructor's call would not be let through.
    let said = said(
        Command::new("java")
            .args([
                "-XX:+UnlockDiagnosticVMOptions",
                "-XX:-BytecodeVerificationRemote",
            ])
            .arg("-cp")
            .arg(&folder)
            .arg("Probe")
            .args(words),
    )?;
    told(&said)
}

fn said(command: &mut Command) -> Result<String, Error> {
    let output = command.output()?;
    if !output.status.success() {
        let error = String::from_utf8_lossy(&output.stderr).into_owned();
        return Err(Error::other(error));
    }
    String::from_utf8(output.stdout).map_err(Error::other)
}

fn told(text: &str) -> Result<Vec<Told>, Error> {
    let mut all = vec![];
    let mut probes = vec![];
    for line in text.lines() {
        let end = match line {
            "returned" => End::Returned,
            "uncaught" => End::Uncaught,
            "enough" => End::Enough,
            line => {
                probes.push(probe(line).ok_or_else(|| Error::other(line.to_string()))?);
                continue;
            }
        };
        let probes = std::mem::take(&mut probes);
        all.push(Told { probes, end });
    }
    Ok(all)
}

fn probe(line: &str) -> Option<(Done, String)> {
    let rest = line.strip_prefix("at ")?;
    let (number, _) = rest.split_once(' ')?;
    let seen = rest[number.len()..].to_string();
    Some((Done::from_number(number.parse().ok()?), seen))
}
