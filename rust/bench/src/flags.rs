//! How each side was compiled.

use std::process::Command;

/// The workspace's own words on how the Rust side is compiled.
const WORKSPACE: &str = include_str!("../../Cargo.toml");

/// What `rattle build --help` says of every static library.
const RATTLE: &str = "one LLVM module, clang -O3, for x86-64";

/// Prints a line for the processor and one for each side.
pub fn print() {
    println!("cpu: {}", cpu());
    println!("proved: {}; {RATTLE}", kit());
    println!(
        "Rust: {}; {}; RUSTFLAGS \"{}\"; {}",
        env!("RUSTC_VERSION"),
        env!("RUSTC_TARGET"),
        env!("RUSTC_FLAGS"),
        profile()
    );
}

fn cpu() -> String {
    let text = std::fs::read_to_string("/proc/cpuinfo").unwrap_or_default();
    text.lines()
        .find_map(|line| line.strip_prefix("model name")?.split(": ").nth(1))
        .unwrap_or("unknown")
        .to_string()
}

/// The kit's own name, where it is at hand.
fn kit() -> String {
    let said = Command::new("rt").arg("version").output();
    let said = said.map_or(vec![], |output| output.stdout);
    match String::from_utf8_lossy(&said).trim() {
        "" => "unknown kit".to_string(),
        name => name.to_string(),
    }
}

/// The release profile, as a line.
fn profile() -> String {
    let lines: Vec<&str> = WORKSPACE
        .lines()
        .skip_while(|line| *line != "[profile.release]")
        .filter(|line| !line.is_empty() && !line.starts_with('#'))
        .collect();
    lines.join(" ")
}
