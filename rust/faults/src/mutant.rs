//! Faults seeded into a class file's bytes, in place: nothing moves, and tables other than the exception table are left alone.

use classfile::{ClassFile, Code, Constant, Instruction};

/// One changed class file.
#[derive(Clone, Debug)]
pub struct Mutant {
    /// What was done, in words.
    pub kind: &'static str,
    /// The method, by its place in the file.
    pub method: usize,
    /// Whether the change unbalances nothing by what it is.
    pub harmless: bool,
    pub bytes: Vec<u8>,
}

struct Site<'a> {
    file: &'a [u8],
    method: usize,
    /// Where the code, and where the exception table's first entry, stand in the file.
    code_at: usize,
    table_at: usize,
    code: &'a Code<'a>,
    all: Vec<Instruction<'a>>,
    other_class: u16,
}

const ALOADS: [u8; 4] = [0x2a, 0x2b, 0x2c, 0x2d];

impl Site<'_> {
    fn changed(&self, kind: &'static str, harmless: bool, changes: &[(usize, &[u8])]) -> Mutant {
        let mut bytes = self.file.to_vec();
        for (at, new) in changes {
            bytes[*at..at + new.len()].copy_from_slice(new);
        }
        Mutant {
            kind,
            method: self.method,
            harmless,
            bytes,
        }
    }

    fn code_change(&self, kind: &'static str, at: usize, new: &[u8]) -> Mutant {
        self.changed(kind, false, &[(self.code_at + at, new)])
    }

    /// Is the instruction a load of a reference, of any form?
    fn is_load(&self, k: usize) -> bool {
        let i = &self.all[k];
        ALOADS.contains(&i.opcode) || i.opcode == 0x19
    }

    fn size(&self, k: usize) -> usize {
        self.all
            .get(k + 1)
            .map_or(self.code.bytes.len(), |next| next.at)
            - self.all[k].at
    }

    fn locks(&self, out: &mut Vec<Mutant>) {
        for (k, i) in self.all.iter().enumerate() {
            match i.opcode {
                0xc3 => {
                    out.push(self.code_change("a release popped", i.at, &[0x57]));
                    out.push(self.code_change("a release made a lock", i.at, &[0xc2]));
                    if k > 0 && self.is_load(k - 1) && self.size(k - 1) == 1 {
                        let load = self.all[k - 1].at;
                        out.push(self.code_change("a release dropped", load, &[0, 0]));
                        for other in ALOADS.iter().filter(|&&o| o != self.code.bytes[load]) {
                            out.push(self.code_change(
                                "another reference released",
                                load,
                                &[*other],
                            ));
                        }
                        if self.code.bytes.last() == Some(&0xb1)
                            || self.all.iter().any(|i| i.opcode == 0xb1)
                        {
                            out.push(self.code_change(
                                "a return before the release",
                                load,
                                &[0xb1],
                            ));
                        }
                    }
                }
                0xc2 => {
                    out.push(self.code_change("a lock popped", i.at, &[0x57]));
                    out.push(self.code_change("a lock made a release", i.at, &[0xc3]));
                    if k > 0 && (0x4b..=0x4e).contains(&self.all[k - 1].opcode) {
                        let store = self.all[k - 1].at;
                        for other in (0x4b..=0x4e).filter(|&o| o != self.code.bytes[store]) {
                            out.push(self.code_change(
                                "the lock kept in another variable",
                                store,
                                &[other],
                            ));
                        }
                    }
                }
                _ => {}
            }
        }
    }

    fn jumps(&self, out: &mut Vec<Mutant>) {
        let past: Vec<usize> = self
            .all
            .iter()
            .filter(|i| i.opcode == 0xc3)
            .map(|i| i.at + 1)
            .collect();
        let returns: Vec<usize> = self
            .all
            .iter()
            .filter(|i| i.opcode == 0xb1)
            .map(|i| i.at)
            .collect();
        for i in &self.all {
            let to = |target: usize| (target as i64 - i.at as i64) as i16;
            match i.opcode {
                0x99..=0xa6 | 0xc6 | 0xc7 => {
                    for &target in past.iter().filter(|&&p| p < self.code.bytes.len()) {
                        let [high, low] = to(target).to_be_bytes();
                        out.push(self.code_change(
                            "a branch past a release",
                            i.at + 1,
                            &[high, low],
                        ));
                    }
                    if !(0x9f..=0xa6).contains(&i.opcode) {
                        out.push(self.code_change("a branch never taken", i.at, &[0x57, 0, 0]));
                    } else {
                        out.push(self.code_change("a branch never taken", i.at, &[0x58, 0, 0]));
                    }
                    let turned = if i.opcode >= 0xc6 {
                        i.opcode ^ 1
                    } else {
                        (i.opcode - 0x99 ^ 1) + 0x99
                    };
                    out.push(self.changed(
                        "a condition turned round",
                        true,
                        &[(self.code_at + i.at, &[turned])],
                    ));
                }
                0xa7 => {
                    for &target in &past {
                        let [high, low] = to(target).to_be_bytes();
                        out.push(self.code_change("a jump past a release", i.at + 1, &[high, low]));
                    }
                    for &target in &returns {
                        let [high, low] = to(target).to_be_bytes();
                        out.push(self.code_change("a jump to a return", i.at + 1, &[high, low]));
                    }
                }
                0x60 => out.push(self.changed(
                    "an addition made a subtraction",
                    true,
                    &[(self.code_at + i.at, &[0x64])],
                )),
                0x03..=0x07 => {
                    out.push(self.changed(
                        "a constant changed",
                        true,
                        &[(self.code_at + i.at, &[i.opcode + 1])],
                    ));
                }
                _ => {}
            }
        }
    }

    fn handlers(&self, out: &mut Vec<Mutant>) {
        let table = |k: usize, field: usize| self.table_at + 8 * k + 2 * field;
        let two = |n: u16| n.to_be_bytes();
        for (k, h) in self.code.handlers.iter().enumerate() {
            let inside: Vec<u16> = self
                .all
                .iter()
                .map(|i| i.at as u16)
                .filter(|at| (h.start..h.end).contains(at))
                .collect();
            let one = |kind, field, value: u16| {
                self.changed(kind, false, &[(table(k, field), &two(value))])
            };
            out.push(one("a handler dropped", 1, h.start));
            if let Some(&last) = inside.last() {
                out.push(one("a range cut at its end", 1, last));
            }
            if inside.len() > 1 {
                out.push(one("a range cut at its start", 0, inside[1]));
                out.push(one("a range halved", 1, inside[inside.len() / 2]));
            }
            if h.catch == 0 && self.other_class != 0 {
                out.push(one("a handler for one type alone", 3, self.other_class));
            }
            if let Some(other) = self.code.handlers.iter().find(|o| o.handler != h.handler) {
                out.push(one("another handler", 2, other.handler));
            }
            if let Some(i) = self
                .all
                .iter()
                .find(|i| i.at > usize::from(h.handler) && i.opcode == 0xc3)
            {
                let after = (i.at + 1) as u16;
                out.push(one("a handler past the release", 2, after));
            }
        }
    }
}

/// Every mutant of a class file's methods that have monitors.
pub fn mutants(file: &[u8]) -> Vec<Mutant> {
    let Ok(class) = ClassFile::read(file) else {
        return Vec::new();
    };
    let mut out = Vec::new();
    let named = |&index: &u16| {
        matches!(class.constants.get(index), Some(Constant::Class(_)))
            && class
                .constants
                .class(index)
                .is_some_and(|n| n.ends_with("Exception"))
    };
    let other_class = (1..u16::MAX)
        .take_while(|&i| class.constants.get(i).is_some())
        .find(named)
        .unwrap_or(0);
    for (method, member) in class.methods.iter().enumerate() {
        let Some(code) = &member.code else { continue };
        let all: Vec<Instruction> = classfile::instructions(code.bytes).collect();
        if !all.iter().any(|i| matches!(i.opcode, 0xc2 | 0xc3)) {
            continue;
        }
        let code_at = code.at + 14;
        let table_at = code_at + code.bytes.len() + 2;
        let site = Site {
            file,
            method,
            code_at,
            table_at,
            code,
            all,
            other_class,
        };
        site.locks(&mut out);
        site.jumps(&mut out);
        site.handlers(&mut out);
    }
    out
}
