//! The class files below paths: files, folders, archives, and archives in archives, in one order.

use archive::Archive;
use std::collections::VecDeque;
use std::path::{Path, PathBuf};
use std::sync::Arc;

/// Where class files come from.
#[derive(Clone, Debug)]
pub enum Unit {
    /// One file.
    File(PathBuf),
    /// Some entries of an archive.
    Entries(Arc<Opened>, std::ops::Range<usize>),
    /// What could not be read, and why.
    Unreadable(String, String),
}

/// An archive that was read, and the name by which its entries are told.
#[derive(Debug)]
pub struct Opened {
    pub name: String,
    pub archive: Archive<Vec<u8>>,
}

/// So many entries go to a worker at once.
const TOGETHER: usize = 64;

/// Archives in archives deeper than this are not opened.
const DEEPEST: usize = 4;

fn is_class(name: &str) -> bool {
    name.ends_with(".class")
}

fn is_archive(name: &str) -> bool {
    [".jar", ".war", ".ear", ".zip", ".jmod"]
        .iter()
        .any(|end| name.ends_with(end))
}

#[derive(Debug)]
enum Waiting {
    Given(PathBuf),
    Found(PathBuf),
    Archive(Arc<Opened>, usize, usize),
}

/// The units of some paths. A path that is given is read whatever its name; what lies in a folder only where its name says that it is a class or an archive.
#[derive(Debug)]
pub struct Units {
    waiting: VecDeque<Waiting>,
}

impl Units {
    pub fn of(paths: &[PathBuf]) -> Units {
        Units {
            waiting: paths.iter().cloned().map(Waiting::Given).collect(),
        }
    }

    fn opened(&mut self, name: String, bytes: Vec<u8>, depth: usize) -> Option<Unit> {
        match Archive::read(bytes) {
            Err(damage) => Some(Unit::Unreadable(name, damage.to_string())),
            Ok(archive) => {
                self.waiting.push_front(Waiting::Archive(
                    Arc::new(Opened { name, archive }),
                    0,
                    depth,
                ));
                None
            }
        }
    }

    fn path(&mut self, path: PathBuf, given: bool) -> Option<Unit> {
        let name = path.display().to_string();
        let unreadable = |e: std::io::Error| Some(Unit::Unreadable(name.clone(), e.to_string()));
        if path.is_dir() {
            let list = |p: &Path| -> std::io::Result<Vec<PathBuf>> {
                std::fs::read_dir(p)?.map(|e| e.map(|e| e.path())).collect()
            };
            match list(&path) {
                Err(e) => return unreadable(e),
                Ok(mut inside) => {
                    inside.sort();
                    for p in inside.into_iter().rev() {
                        self.waiting.push_front(Waiting::Found(p));
                    }
                    return None;
                }
            }
        }
        if is_archive(&name) {
            return match std::fs::read(&path) {
                Err(e) => unreadable(e),
                Ok(bytes) => self.opened(name, bytes, 1),
            };
        }
        (given || is_class(&name)).then_some(Unit::File(path))
    }

    /// The next entries of an archive; one in it that is an archive comes by itself.
    fn entries(&mut self, opened: Arc<Opened>, from: usize, depth: usize) -> Option<Unit> {
        let entries = &opened.archive.entries;
        let mut to = from;
        while to < entries.len() && to - from < TOGETHER && !is_archive(&entries[to].name) {
            to += 1;
        }
        if to > from {
            self.waiting
                .push_front(Waiting::Archive(opened.clone(), to, depth));
            return Some(Unit::Entries(opened, from..to));
        }
        let entry = entries.get(from)?;
        let name = format!("{}!{}", opened.name, entry.name);
        self.waiting
            .push_front(Waiting::Archive(opened.clone(), from + 1, depth));
        if depth == DEEPEST {
            return Some(Unit::Unreadable(
                name,
                "archives are nested too deep".to_owned(),
            ));
        }
        match opened.archive.content(entry) {
            Err(damage) => Some(Unit::Unreadable(name, damage.to_string())),
            Ok(bytes) => self.opened(name, bytes, depth + 1),
        }
    }
}

impl Iterator for Units {
    type Item = Unit;

    fn next(&mut self) -> Option<Unit> {
        loop {
            let unit = match self.waiting.pop_front()? {
                Waiting::Given(path) => self.path(path, true),
                Waiting::Found(path) => self.path(path, false),
                Waiting::Archive(opened, from, depth) => self.entries(opened, from, depth),
            };
            if unit.is_some() {
                return unit;
            }
        }
    }
}

impl Unit {
    /// Each class file of the unit: its name, and its bytes or why it could not be read.
    pub fn classes(&self, mut each: impl FnMut(String, Result<Vec<u8>, String>)) {
        match self {
            Unit::File(path) => each(
                path.display().to_string(),
                std::fs::read(path).map_err(|e| e.to_string()),
            ),
            Unit::Unreadable(name, why) => each(name.clone(), Err(why.clone())),
            Unit::Entries(opened, range) => {
                for entry in opened.archive.entries[range.clone()]
                    .iter()
                    .filter(|e| is_class(&e.name))
                {
                    let content = opened.archive.content(entry).map_err(|d| d.to_string());
                    each(format!("{}!{}", opened.name, entry.name), content);
                }
            }
        }
    }
}
