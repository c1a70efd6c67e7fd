//! Bytes that break a condition, and what is wanted there.

use crate::Explanation;
use listing::{byte, hex};

/// Some bytes of the bundle that are not what a rule wants.
#[derive(Clone, Debug, PartialEq, Eq)]
pub struct Finding {
    pub at: usize,
    pub length: usize,
    /// What they say, and what is wanted.
    pub text: String,
}

impl Finding {
    pub fn new(at: usize, length: usize, text: String) -> Finding {
        Finding { at, length, text }
    }
}

/// The explanation of a rule that bytes break.
pub fn explained(bytes: &[u8], rule: &str, findings: Vec<Finding>) -> Explanation {
    let seen = findings.iter().map(|finding| {
        let Finding { at, length, .. } = *finding;
        let content: Vec<u8> = (at..at + length).map(|at| byte(bytes, at)).collect();
        let name = match length {
            1 => format!("byte {at}"),
            _ => format!("bytes {at} to {}", at + length - 1),
        };
        (name, hex(&content))
    });
    Explanation {
        rule: rule.to_string(),
        seen: seen.collect(),
        found: findings.iter().map(|f| f.text.clone()).collect(),
        why: None,
    }
}
