//! What makes attributes worth comparing on: each mark is counted, so that none
//! goes missing.

use super::Taking;
use reference::take::{instructions, take, Answer, Attribute, Does, Entry, Instruction};

/// What is given, what the reference answers, and what it read.
#[derive(Debug)]
pub struct Looked<'a> {
    pub taking: &'a Taking,
    pub answer: Answer,
    attribute: Option<Attribute<'a>>,
    entries: Vec<Entry>,
    /// Up to the first that isn't taken.
    read: Vec<Instruction>,
    /// How many are written for them.
    count: u32,
}

impl<'a> Looked<'a> {
    pub fn at(taking: &'a Taking) -> Looked<'a> {
        let Taking {
            attribute, classes, ..
        } = taking;
        let answer = take(attribute, classes, &mut vec![0; taking.room]);
        let read = instructions(attribute, classes);
        let count = read.iter().map(|i| i.does.yields()).sum();
        let attribute = Attribute::read(attribute);
        Looked {
            taking,
            answer,
            attribute,
            entries: attribute.map_or(vec![], |a| a.entries().collect()),
            read,
            count,
        }
    }

    fn code(&self) -> &[u8] {
        self.attribute.map_or(&[], |attribute| attribute.code)
    }

    pub fn is(&self, number: u8) -> bool {
        self.answer.number == number
    }

    /// The opcodes of a method that is taken.
    pub fn opcodes(&self) -> impl Iterator<Item = u8> + '_ {
        let taken = self.read.iter().filter(|_| self.is(0));
        let places = taken.flat_map(|i| {
            let last = i.at + u32::from(i.size) - 1;
            [Some(i.at), i.does.is_pair().then_some(last)]
        });
        places.flatten().filter_map(|at| self.byte(at))
    }

    /// The opcode that draws a 31, where it is what isn't taken.
    pub fn refused_opcode(&self) -> Option<u8> {
        self.byte(self.answer.value).filter(|_| self.is(31))
    }

    fn byte(&self, at: u32) -> Option<u8> {
        self.code().get(at as usize).copied()
    }

    /// A 31 of this opcode with so many bytes of code from there on.
    fn refused(&self, opcode: u8, has: impl Fn(&[u8]) -> bool) -> bool {
        let rest = self.code().get(self.answer.value as usize..);
        self.refused_opcode() == Some(opcode) && rest.is_some_and(has)
    }

    /// A 31 of a lock behind these last instructions.
    fn lone_lock(&self, behind: impl Fn(&[Instruction]) -> bool) -> bool {
        matches!(self.refused_opcode(), Some(0xC2 | 0xC3)) && behind(&self.read)
    }

    fn branches(&self) -> impl Iterator<Item = (u32, i64)> + '_ {
        self.read.iter().filter_map(|i| match i.does {
            Does::Branch(distance) => Some((i.at, i64::from(i.at) + i64::from(distance))),
            _ => None,
        })
    }

    /// A 32 of a branch, by its target.
    fn branch_astray(&self, to: impl Fn(i64) -> bool) -> bool {
        let mut branches = self.branches();
        self.is(32) && branches.any(|(at, target)| at == self.answer.value && to(target))
    }

    /// A 32 of an entry, while no branch goes astray.
    fn entry_astray(&self, is: impl Fn(&Entry) -> bool) -> bool {
        let branch = self.branches().any(|(_, target)| self.is_astray(target));
        let mut astray = self.entries.iter();
        let first = astray.find(|entry| self.is_astray(entry.handler.into()));
        self.is(32) && !branch && first.is_some_and(is)
    }

    fn is_astray(&self, target: i64) -> bool {
        let found = self.read.iter().find(|i| i64::from(i.at) == target);
        found.is_none_or(|i| i.before == self.count)
    }

    fn some_entry_astray(&self) -> bool {
        let mut entries = self.entries.iter();
        entries.any(|entry| self.is_astray(entry.handler.into()))
    }

    fn is_lock_byte(&self, target: i64) -> bool {
        let lock = |i: &Instruction| i64::from(i.at) + i64::from(i.size) - 1;
        self.read
            .iter()
            .any(|i| i.does.is_pair() && lock(i) == target)
    }

    /// At a nop with nothing written after it.
    fn is_last_nop(&self, target: i64) -> bool {
        let nop = |i: &Instruction| i.does == Does::Nop && i.before == self.count;
        self.read
            .iter()
            .any(|i| i64::from(i.at) == target && nop(i))
    }

    fn is_nop(&self, target: i64) -> bool {
        let at = |i: &Instruction| i64::from(i.at) == target && i.does == Does::Nop;
        self.read.iter().any(at)
    }

    /// The first that doesn't fit.
    fn offender(&self, is: impl Fn(&Instruction) -> bool) -> bool {
        let mut found = self.read.iter();
        found.any(|i| i.at == self.answer.value && is(i))
    }

    /// A taken method has an instruction with a handler's place, and its offset
    /// has this to do with some entry.
    fn covered(&self, is: impl Fn(&Looked, &Instruction, u32) -> bool) -> bool {
        let throws = |does| matches!(does, Does::Enter(_) | Does::New(_) | Does::Athrow);
        let offset = |i: &Instruction| match i.does.is_pair() {
            true => i.at + u32::from(i.size) - 1,
            false => i.at,
        };
        let mut throwing = self.read.iter().filter(|i| throws(i.does));
        self.is(0) && throwing.any(|i| is(self, i, offset(i)))
    }

    fn covering(&self, offset: u32) -> impl Iterator<Item = &Entry> + '_ {
        let covers = move |e: &&Entry| (u32::from(e.start)..u32::from(e.end)).contains(&offset);
        self.entries.iter().filter(covers)
    }
}

/// What is marked, and whether an attribute has it.
pub type Mark = (&'static str, fn(&Looked) -> bool);

pub const MARKS: [Mark; 47] = [
    // 30
    ("no code", |a| {
        a.is(30) && a.taking.attribute.get(10..14) == Some(&[0; 4])
    }),
    ("a code length near 2^32", |a| {
        a.is(30) && a.taking.attribute.get(10..12) == Some(&[0xFF; 2])
    }),
    ("no code length", |a| {
        a.is(30) && a.taking.attribute.len() < 14
    }),
    ("a table cut short", |a| {
        a.is(30) && table_is_cut(&a.taking.attribute)
    }),
    ("nothing behind the table", |a| {
        let end = |t: Attribute| 16 + t.code.len() + t.table.len();
        a.is(0)
            && a.attribute
                .is_some_and(|t| end(t) == a.taking.attribute.len())
    }),
    // 31
    ("cut off before its variable", |a| {
        a.refused(0x15, |rest| rest.len() == 1)
    }),
    ("an iinc cut off", |a| {
        a.refused(0x84, |rest| rest.len() < 3)
    }),
    ("an ifne cut off", |a| {
        a.refused(0x9A, |rest| rest.len() < 3)
    }),
    ("a new cut off", |a| a.refused(0xBB, |rest| rest.len() < 3)),
    ("a class that is not in the list", |a| {
        a.refused(0xBB, |rest| rest.len() >= 3 && place(a, rest).is_none())
    }),
    ("a class that is only in the ninth place", |a| {
        a.refused(0xBB, |rest| rest.len() >= 3 && place(a, rest) == Some(8))
    }),
    ("iinc by something else", |a| {
        a.refused(0x84, |rest| rest.len() >= 3)
    }),
    ("iinc by -1", |a| {
        a.refused(0x84, |rest| rest.get(2) == Some(&255))
    }),
    ("a lock behind an aload and a nop", |a| {
        a.lone_lock(
            |read| matches!(read, [.., aload, nop] if nop.does == Does::Nop && is_aload(a, aload)),
        )
    }),
    ("a lock behind an aload that has one", |a| {
        a.lone_lock(|read| read.last().is_some_and(|i| i.does.is_pair()))
    }),
    ("a lock behind an iload", |a| {
        let iload = |i: &Instruction| matches!(i.does, Does::Load(_)) && !is_aload(a, i);
        a.lone_lock(|read| read.last().is_some_and(iload))
    }),
    ("a 31 with a handler behind the code", |a| {
        let behind = |e: &Entry| usize::from(e.handler) >= a.code().len();
        a.is(31) && a.entries.iter().any(behind)
    }),
    // 32
    ("a branch inside an instruction", |a| {
        a.branch_astray(|to| {
            let inside = (0..a.code().len() as i64).contains(&to);
            inside && !a.is_lock_byte(to) && !a.is_last_nop(to)
        })
    }),
    ("a branch to a lock byte", |a| {
        a.branch_astray(|to| a.is_lock_byte(to))
    }),
    ("a branch to a last nop", |a| {
        a.branch_astray(|to| a.is_last_nop(to))
    }),
    ("a branch to the code's end", |a| {
        a.branch_astray(|to| to == a.code().len() as i64)
    }),
    ("a branch behind the code", |a| {
        a.branch_astray(|to| to > a.code().len() as i64)
    }),
    ("a branch before the code", |a| a.branch_astray(|to| to < 0)),
    ("a handler at a lock byte", |a| {
        a.entry_astray(|e| a.is_lock_byte(e.handler.into()))
    }),
    ("a handler at a last nop", |a| {
        a.entry_astray(|e| a.is_last_nop(e.handler.into()))
    }),
    ("a handler at the code's end", |a| {
        a.entry_astray(|e| usize::from(e.handler) == a.code().len())
    }),
    ("a handler astray of an empty range", |a| {
        a.entry_astray(|e| e.start == e.end)
    }),
    ("a handler astray of a turned range", |a| {
        a.entry_astray(|e| e.start > e.end)
    }),
    ("a branch and a handler astray", |a| {
        a.branch_astray(|_| true) && a.some_entry_astray()
    }),
    ("a 32 of more than 256 instructions", |a| {
        a.is(32) && a.count > 256
    }),
    ("a 32 without room", |a| {
        a.is(32) && a.count as usize * 4 > a.taking.room
    }),
    // 33 and 34
    ("256 instructions taken", |a| a.is(0) && a.count == 256),
    ("257 instructions", |a| a.is(33) && a.count == 257),
    ("a pair that is too many", |a| {
        a.is(33) && a.offender(|i| i.does.is_pair())
    }),
    ("an iinc that is too many in part", |a| {
        a.is(33) && a.offender(|i| i.does.yields() == 3 && i.before < 256)
    }),
    ("a 33 without room", |a| a.is(33) && a.taking.room < 1_024),
    ("a pair without room", |a| {
        a.is(34) && a.offender(|i| i.does.is_pair())
    }),
    ("an iinc with room in part", |a| {
        let in_part = |i: &Instruction| (i.before as usize + 1) * 4 <= a.taking.room;
        a.is(34) && a.offender(|i| i.does.yields() == 3 && in_part(i))
    }),
    ("one byte too short", |a| {
        a.is(34) && a.taking.room + 1 == 4 * a.count as usize
    }),
    // What is taken
    ("room to the byte", |a| {
        a.is(0) && a.taking.room == 4 * a.count as usize
    }),
    ("nothing but nops", |a| a.is(0) && a.count == 0),
    ("a branch to a nop", |a| {
        a.is(0) && a.branches().any(|(_, to)| a.is_nop(to))
    }),
    ("an offset at a range's end", |a| {
        a.covered(|a, _, at| {
            a.covering(at).next().is_none()
                && a.entries
                    .iter()
                    .any(|e| u32::from(e.end) == at && e.start < e.end)
        })
    }),
    ("an offset at a range's start", |a| {
        a.covered(|a, _, at| a.covering(at).any(|e| u32::from(e.start) == at))
    }),
    ("two entries that cover, with other handlers", |a| {
        a.covered(|a, _, at| {
            let mut all = a.covering(at).map(|e| e.handler);
            let first = all.next();
            first.is_some_and(|first| all.any(|handler| handler != first))
        })
    }),
    ("a pair covered at its lock alone", |a| {
        a.covered(|a, i, at| {
            i.at != at && a.covering(i.at).next().is_none() && a.covering(at).next().is_some()
        })
    }),
    ("a pair covered at its aload alone", |a| {
        a.covered(|a, i, at| {
            i.at != at && a.covering(at).next().is_none() && a.covering(i.at).next().is_some()
        })
    }),
];

/// The first place of a new's class in the whole list.
fn place(a: &Looked, new: &[u8]) -> Option<usize> {
    let index = u16::from_be_bytes([*new.get(1)?, *new.get(2)?]);
    a.taking.classes.iter().position(|&class| class == index)
}

fn is_aload(a: &Looked, instruction: &Instruction) -> bool {
    matches!(a.byte(instruction.at), Some(0x19 | 0x2A..=0x2D))
}

/// Whether the code is all there, and its table's length too.
fn table_is_cut(bytes: &[u8]) -> bool {
    let code = bytes.get(10..14).map(|length| {
        length
            .iter()
            .fold(0, |n: usize, &byte| n << 8 | usize::from(byte))
    });
    code.is_some_and(|code| code > 0 && code < bytes.len() && 16 + code <= bytes.len())
}
