//! The report as text, and the summary.

use crate::method::{Finding, Judgement, Place};
use crate::{words, ClassReport, FileReport, MethodReport};
use std::collections::BTreeMap;
use std::fmt::Write;
use std::time::Duration;

/// What was seen in all.
#[derive(Clone, Debug, Default, PartialEq, Eq)]
pub struct Summary {
    pub files: usize,
    pub unreadable: usize,
    pub methods: usize,
    pub synchronized: usize,
    pub with_monitors: usize,
    pub accepted: usize,
    pub refused: usize,
    /// How many are not judged, by why.
    pub not_judged: BTreeMap<String, usize>,
}

impl Summary {
    pub fn add(&mut self, file: &FileReport) {
        self.files += 1;
        let Ok(class) = &file.class else {
            self.unreadable += 1;
            return;
        };
        self.methods += class.methods;
        self.synchronized += class.synchronized;
        for method in &class.judged {
            self.with_monitors += 1;
            match &method.judgement {
                Judgement::Accepted => self.accepted += 1,
                Judgement::Refused(_) => self.refused += 1,
                Judgement::NotJudged(obstacle) => {
                    *self.not_judged.entry(obstacle.why.clone()).or_default() += 1
                }
            }
        }
    }

    /// 0 all accepted, 1 some refused, 2 something could not be read or judged.
    pub fn status(&self) -> u8 {
        match (
            self.unreadable > 0 || !self.not_judged.is_empty(),
            self.refused > 0,
        ) {
            (true, _) => 2,
            (false, true) => 1,
            (false, false) => 0,
        }
    }

    pub fn text(&self, time: Duration) -> String {
        let not_judged: usize = self.not_judged.values().sum();
        let mut out = format!(
            "{} files, {} methods, {} with monitors: {} accepted, {} refused, {not_judged} not judged; {:.2} s\n",
            self.files,
            self.methods,
            self.with_monitors,
            self.accepted,
            self.refused,
            time.as_secs_f64()
        );
        for (why, count) in &self.not_judged {
            let _ = writeln!(out, "not judged, {count}: {why}");
        }
        if self.unreadable > 0 {
            let _ = writeln!(out, "{} files could not be read", self.unreadable);
        }
        if self.synchronized > 0 {
            let _ = writeln!(
                out,
                "{} methods are synchronized as a whole: no instruction of theirs is judged",
                self.synchronized
            );
        }
        out
    }
}

/// What is proved and what is not.
pub const LIMITS: &str = "\
Proved: an accepted skeleton keeps its locks balanced on every path, under every
schedule and every failed allocation. Tested, not proved: that a skeleton has
every lock path of its method. Not seen: java.util.concurrent, methods that are
synchronized as a whole, releases in callees. Refused though they may be right:
a release through another fetch of a field, or under the same flag as its lock.
";

/// Where a finding is named: the line at which it goes wrong, or the way's last.
pub fn named_place(found: &Finding) -> Option<Place> {
    found
        .turn
        .map(|step| step.place)
        .or_else(|| found.way.last().map(|step| step.place))
}

fn method_text(class: &ClassReport, method: &MethodReport, found: &Finding) -> String {
    let place = named_place(found);
    let source = class.source.as_deref().unwrap_or("?");
    let line = place.map_or(0, |p| p.line);
    let offset = place.map_or(0, |p| p.offset);
    let mut out = format!(
        "{}.{}{} ({source}:{line}, offset {offset})\n    {}\n    lock: {}\n",
        class.class,
        method.name,
        method.descriptor,
        words::sentence(found),
        found.lock
    );
    if let Some(turn) = words::turn(found) {
        let _ = writeln!(out, "    {turn}");
    }
    let _ = writeln!(out, "    way: {}", words::way(found));
    out
}

/// What is said of a file: nothing of one without a fault.
pub fn file_text(file: &FileReport) -> String {
    let class = match &file.class {
        Err(why) => return format!("{}: {why}\n", file.name),
        Ok(class) => class,
    };
    let mut out = String::new();
    for method in &class.judged {
        match &method.judgement {
            Judgement::Accepted => {}
            Judgement::Refused(found) => out.push_str(&method_text(class, method, found)),
            Judgement::NotJudged(obstacle) => {
                let _ = writeln!(
                    out,
                    "{}.{}{}: not judged: {obstacle}",
                    class.class, method.name, method.descriptor
                );
            }
        }
    }
    out
}
