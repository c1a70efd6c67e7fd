//! The script in a repository where nothing is built, with an rt and a cargo
//! that only say what the true ones say.

use std::fs;
use std::os::unix::fs::{symlink, PermissionsExt};
use std::path::{Path, PathBuf};
use std::process::{Child, Command, Output, Stdio};
use std::thread::sleep;
use std::time::{Duration, Instant};

/// All that the script calls besides rt and cargo.
const UTILITIES: [&str; 15] = [
    "awk", "cat", "chmod", "cp", "date", "find", "flock", "grep", "mkdir", "mv", "readlink", "sed",
    "setsid", "sleep", "tail",
];

/// Proves two crates in two seconds, and writes the program: long enough for the
/// first to be told of on a machine that is busy.
const RT: &str = r#"
echo "rt $* in ${PWD##*/}" >>../../runs
mkdir -p out
echo 'crate ground: modules loaded=0 checked=9'
sleep 1.5
echo 'crate hveitmar: modules loaded=0 checked=9'
sleep 0.5
printf '#!/bin/sh\necho accepted classes 1\n' >out/hveitmar
chmod +x out/hveitmar
: >out/libexports.a
echo done >>../../runs
"#;

const CARGO: &str = r#"
mkdir -p target/release
printf '#!/bin/sh\necho "the tool: $*"\n' >target/release/command
chmod +x target/release/command
"#;

/// A repository of its own, with a folder of programs that is the whole PATH.
struct Repository(PathBuf);

impl Repository {
    fn new(name: &str, programs: &[(&str, &str)]) -> Repository {
        let root = Path::new(env!("CARGO_TARGET_TMPDIR")).join(name);
        let _ = fs::remove_dir_all(&root);
        for folder in ["bin", "crates/exports", "crates/hveitmar", "rust"] {
            fs::create_dir_all(root.join(folder)).expect("a folder");
        }
        let crates = "# two\nground:\nhveitmar: ground\nexports staticlib: ground\n";
        fs::write(root.join("crates.txt"), crates).expect("a file");
        fs::write(root.join("rust/Cargo.toml"), "").expect("a file");
        let script = Path::new(env!("CARGO_MANIFEST_DIR")).join("../../hveitmar");
        fs::copy(script, root.join("hveitmar")).expect("the script");
        for name in UTILITIES {
            symlink(utility(name), root.join("bin").join(name)).expect("a link");
        }
        let repository = Repository(root);
        for (name, text) in programs {
            repository.program(name, text);
        }
        repository
    }

    fn program(&self, name: &str, text: &str) {
        let path = self.0.join("bin").join(name);
        fs::write(&path, format!("#!/bin/sh\nset -e\n{text}")).expect("a file");
        fs::set_permissions(&path, fs::Permissions::from_mode(0o755)).expect("a mode");
    }

    fn spawn(&self, words: &[&str]) -> Child {
        Command::new(self.0.join("hveitmar"))
            .args(words)
            .env("PATH", self.0.join("bin"))
            .stdin(Stdio::null())
            .stdout(Stdio::piped())
            .stderr(Stdio::piped())
            .spawn()
            .expect("the script")
    }

    fn run(&self, words: &[&str]) -> Ran {
        ran(self.spawn(words))
    }

    /// What rt was asked, and when it was done.
    fn runs(&self) -> String {
        fs::read_to_string(self.0.join("runs")).unwrap_or_default()
    }

    /// Waits until rt has begun.
    fn begun(&self) {
        let patience = Instant::now();
        while self.runs().is_empty() {
            assert!(patience.elapsed() < Duration::from_secs(20), "rt begins");
            sleep(Duration::from_millis(20));
        }
    }
}

fn utility(name: &str) -> PathBuf {
    let path = std::env::var_os("PATH").expect("a PATH");
    std::env::split_paths(&path)
        .map(|folder| folder.join(name))
        .find(|file| file.exists())
        .unwrap_or_else(|| panic!("{name} is missing"))
}

#[derive(Debug)]
struct Ran {
    out: String,
    err: String,
    status: Option<i32>,
}

fn ran(child: Child) -> Ran {
    let output: Output = child.wait_with_output().expect("its output");
    let text = |bytes| String::from_utf8(bytes).expect("text");
    Ran {
        out: text(output.stdout),
        err: text(output.stderr),
        status: output.status.code(),
    }
}

#[test]
fn progress_goes_to_standard_error() {
    let repository = Repository::new("progress", &[("rt", RT), ("cargo", CARGO)]);
    let first = repository.run(&[]);
    assert_eq!(
        (first.out.as_str(), first.status),
        ("accepted classes 1\n", Some(0))
    );
    let told = [
        "2 crates; from nothing",
        "ground is proved, 1 of 2",
        "hveitmar is proved, 2 of 2",
    ];
    assert!(
        told.iter().all(|part| first.err.contains(part)),
        "{first:?}"
    );
    assert!(first.err.contains("s so far"), "{first:?}");
    let second = repository.run(&[]);
    assert_eq!(
        (second.out.as_str(), second.err.as_str()),
        ("accepted classes 1\n", "")
    );
    assert_eq!(repository.runs(), "rt run in hveitmar\ndone\n");
}

#[test]
fn a_change_builds_again() {
    let repository = Repository::new("change", &[("rt", RT), ("cargo", CARGO)]);
    assert_eq!(repository.run(&["check", "x"]).out, "the tool: check x\n");
    fs::write(repository.0.join("rust/Cargo.toml"), "#").expect("a file");
    let compiled = repository.run(&["check", "x"]);
    assert!(compiled.err.contains("compiling the tool"), "{compiled:?}");
    assert_eq!(repository.runs(), "rt lib in exports\ndone\n");
    fs::write(repository.0.join("crates/new"), "").expect("a file");
    let proved = repository.run(&["check", "x"]);
    assert!(proved.err.contains("compiling the tool"), "{proved:?}");
    assert_eq!(repository.runs().lines().count(), 4);
    assert_eq!(repository.run(&["check", "x"]).err, "");
}

#[test]
fn a_failed_build_shows_why() {
    let rt = "echo 'fn ground::byte: not proved'; exit 1";
    let repository = Repository::new("failed", &[("rt", rt), ("cargo", CARGO)]);
    for words in [&[][..], &["check", "x"]] {
        let ran = repository.run(words);
        assert_eq!((ran.out.as_str(), ran.status), ("", Some(2)), "{ran:?}");
        assert!(ran.err.contains("fn ground::byte: not proved"), "{ran:?}");
        assert!(ran.err.contains("the build failed: rt"), "{ran:?}");
    }
    let cargo = "echo 'error: no such thing' >&2; exit 101";
    let repository = Repository::new("failed-tool", &[("rt", RT), ("cargo", cargo)]);
    let ran = repository.run(&["check", "x"]);
    assert_eq!((ran.out.as_str(), ran.status), ("", Some(2)), "{ran:?}");
    assert!(ran.err.contains("error: no such thing"), "{ran:?}");
}

#[test]
fn what_is_missing_is_named() {
    for (name, programs, missing) in [
        ("no-rt", [("cargo", CARGO)], "rt"),
        ("no-cargo", [("rt", RT)], "cargo"),
    ] {
        let ran = Repository::new(name, &programs).run(&["check", "x"]);
        let line = format!("hveitmar: {missing} is missing: ");
        assert!(ran.err.starts_with(&line), "{ran:?}");
        assert_eq!(
            (ran.err.lines().count(), ran.status),
            (1, Some(2)),
            "{ran:?}"
        );
    }
}

#[test]
fn two_first_uses_at_once_build_once() {
    let repository = Repository::new("twice", &[("rt", RT), ("cargo", CARGO)]);
    let one = repository.spawn(&[]);
    repository.begun();
    let other = repository.run(&[]);
    assert!(
        other.err.starts_with("hveitmar: another use is building"),
        "{other:?}"
    );
    assert_eq!(
        (other.out.as_str(), other.status),
        ("accepted classes 1\n", Some(0))
    );
    assert_eq!(ran(one).out, "accepted classes 1\n");
    assert_eq!(repository.runs(), "rt run in hveitmar\ndone\n");
}

#[test]
fn a_killed_use_blocks_nobody() {
    let repository = Repository::new("killed", &[("rt", RT), ("cargo", CARGO)]);
    let mut one = repository.spawn(&[]);
    repository.begun();
    one.kill().expect("it lives");
    one.wait().expect("it ends");
    let other = repository.run(&[]);
    assert_eq!(
        (other.out.as_str(), other.status),
        ("accepted classes 1\n", Some(0))
    );
}

#[test]
fn an_interrupted_use_ends_its_build() {
    let repository = Repository::new("interrupted", &[("rt", RT), ("cargo", CARGO)]);
    let mut one = repository.spawn(&[]);
    repository.begun();
    let kill = Command::new("kill").arg(one.id().to_string()).status();
    assert!(kill.expect("kill").success());
    assert_eq!(one.wait().expect("it ends").code(), Some(2));
    sleep(Duration::from_millis(1_200));
    assert_eq!(repository.runs(), "rt run in hveitmar\n", "rt was ended too");
}
