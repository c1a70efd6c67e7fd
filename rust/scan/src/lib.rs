//! Woven class files judged: which method keeps a lock, on which line, by which way.
//!
//! A method is accepted only where its skeleton (crate `skeleton`) is accepted by the judge that the caller gives: the proved gate.

pub mod flow;
pub mod json;
pub mod method;
pub mod page;
pub mod report;
pub mod source;
pub mod strata;
pub mod words;

use classfile::ClassFile;
use method::{has_monitors, judged, Judge, Judgement};
use skeleton::Throws;
use source::{Unit, Units};
use std::collections::BTreeMap;
use std::path::PathBuf;
use std::sync::atomic::{AtomicUsize, Ordering};
use std::sync::{mpsc, Mutex};
use strata::Features;

/// A method that has monitor instructions.
#[derive(Clone, Debug)]
pub struct MethodReport {
    pub name: String,
    pub descriptor: String,
    /// What happens while a lock is held; nothing of a method that could not be read.
    pub features: Option<Features>,
    pub judgement: Judgement,
}

/// A class file that was read.
#[derive(Clone, Debug)]
pub struct ClassReport {
    /// The class's name, with dots.
    pub class: String,
    /// The source file, where it is told.
    pub source: Option<String>,
    /// How many methods have code.
    pub methods: usize,
    /// How many are synchronized as a whole, which no instruction shows.
    pub synchronized: usize,
    /// Those with monitors.
    pub judged: Vec<MethodReport>,
    /// Name and descriptor of those with code and without monitors.
    pub plain: Vec<(String, String)>,
}

/// A file, and what it is or why it could not be read.
#[derive(Clone, Debug)]
pub struct FileReport {
    pub name: String,
    pub class: Result<ClassReport, String>,
}

/// What is said of a class file's bytes.
pub fn class_report(bytes: &[u8], throws: &Throws, judge: Judge) -> Result<ClassReport, String> {
    let class = ClassFile::read(bytes).map_err(|damage| damage.to_string())?;
    let mut out = ClassReport {
        class: class.name.replace('/', "."),
        source: class.source.clone(),
        methods: 0,
        synchronized: 0,
        judged: Vec::new(),
        plain: Vec::new(),
    };
    for member in &class.methods {
        out.synchronized += usize::from(member.access & 0x20 != 0);
        let Some(code) = &member.code else { continue };
        out.methods += 1;
        let (name, descriptor) = (member.name.clone(), member.descriptor.clone());
        if !has_monitors(code) {
            out.plain.push((name, descriptor));
        } else {
            let (judgement, features) =
                judged(&class.name, member, code, &class.constants, throws, judge);
            out.judged.push(MethodReport {
                name,
                descriptor,
                features,
                judgement,
            });
        }
    }
    Ok(out)
}

fn unit_reports(unit: &Unit, throws: &Throws, judge: Judge) -> Vec<FileReport> {
    let mut out = Vec::new();
    unit.classes(|name, bytes| {
        let class = bytes.and_then(|b| class_report(&b, throws, judge));
        out.push(FileReport { name, class });
    });
    out
}

/// Every class file below the paths, by so many workers; `each` gets them in the paths' order, whatever the workers did.
pub fn scan(
    paths: &[PathBuf],
    throws: &Throws,
    judge: Judge,
    workers: usize,
    mut each: impl FnMut(FileReport),
) {
    let units = Mutex::new(Units::of(paths));
    let given = AtomicUsize::new(0);
    let (send, receive) = mpsc::sync_channel(64);
    let next = || {
        let mut units = units
            .lock()
            .unwrap_or_else(std::sync::PoisonError::into_inner);
        units
            .next()
            .map(|unit| (given.fetch_add(1, Ordering::Relaxed), unit))
    };
    std::thread::scope(|scope| {
        for _ in 0..workers.max(1) {
            let (send, next) = (send.clone(), &next);
            scope.spawn(move || {
                while let Some((number, unit)) = next() {
                    if send
                        .send((number, unit_reports(&unit, throws, judge)))
                        .is_err()
                    {
                        return;
                    }
                }
            });
        }
        drop(send);
        let (mut early, mut wanted) = (BTreeMap::new(), 0);
        for (number, reports) in receive {
            early.insert(number, reports);
            while let Some(reports) = early.remove(&wanted) {
                reports.into_iter().for_each(&mut each);
                wanted += 1;
            }
        }
    });
}
