//! The README shows what comes out.

mod common;

use common::{root, tool};

const INDENT: &str = "    ";
const PROMPT: &str = "    ./hveitmar ";
const CUT: &str = "..";

/// The commands of the README, each with the block of text below it.
fn examples(text: &str) -> Vec<(String, String)> {
    let lines: Vec<&str> = text.lines().collect();
    let starts = (0..lines.len()).filter(|&at| lines[at].starts_with(PROMPT));
    starts
        .map(|at| {
            let block = lines[at + 1..].iter();
            let shown: Vec<&str> = block
                .take_while(|line| line.is_empty() || line.starts_with(INDENT))
                .take_while(|line| !line.starts_with(PROMPT))
                .map(|line| line.strip_prefix(INDENT).unwrap_or(line))
                .collect();
            let words = lines[at][PROMPT.len()..].to_string();
            (words, shown.join("\n").trim().to_string())
        })
        .collect()
}

/// Whether this was printed. A line that ends in dots is shown cut, and dots
/// alone stand for all lines that are left.
fn shows(shown: &str, printed: &str) -> bool {
    let mut printed = printed.lines();
    for line in shown.lines() {
        let whole = match line.strip_suffix(CUT) {
            Some("") => return printed.next().is_some(),
            Some(begin) => printed.next().is_some_and(|p| p.starts_with(begin)),
            None => printed.next() == Some(line),
        };
        if !whole {
            return false;
        }
    }
    printed.next().is_none()
}

#[test]
fn every_example_comes_out_as_it_stands() {
    let text = std::fs::read_to_string(root().join("README.md")).expect("README.md");
    let examples = examples(&text);
    for (words, shown) in &examples {
        // Quotes are for the shell; standard error is written first.
        let words: Vec<&str> = words.split(' ').map(|w| w.trim_matches('\'')).collect();
        let ran = tool(&words, &[]);
        let printed = ran.err + &ran.out;
        assert!(shows(shown, printed.trim()), "{words:?}\n{printed}");
    }
    for command in [
        "check", "show", "explain", "fill", "trace", "run", "order", "methods", "take", "usage",
    ] {
        assert!(examples.iter().any(|(words, _)| words.starts_with(command)));
    }
}
