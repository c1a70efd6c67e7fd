//! Tells the benchmark which compiler made it, and with which flags.

use std::process::Command;

fn main() {
    let rustc = std::env::var("RUSTC").unwrap_or("rustc".to_string());
    let version = Command::new(rustc).arg("--version").output();
    let version = version.map_or(vec![], |output| output.stdout);
    println!(
        "cargo:rustc-env=RUSTC_VERSION={}",
        String::from_utf8_lossy(&version).trim()
    );
    let flags = std::env::var("CARGO_ENCODED_RUSTFLAGS").unwrap_or_default();
    println!("cargo:rustc-env=RUSTC_FLAGS={}", flags.replace('\x1f', " "));
    println!(
        "cargo:rustc-env=RUSTC_TARGET={}",
        std::env::var("TARGET").unwrap_or_default()
    );
}
