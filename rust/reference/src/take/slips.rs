//! Deliberate mistakes, for those who test what finds mistakes.

use super::attribute::{Attribute, Entry, BEFORE_LENGTH};
use super::instructions::{java, Does, Instruction};
use super::law::{AsWritten, Law};
use super::method::Method;
use super::{take_by, Answer, Row};

/// A mistake in words, and what is done by it.
pub type Slip = (&'static str, fn(&[u8], &[u16], &mut [u8]) -> Answer);

/// Each is its name in words, and the clause that it changes.
macro_rules! slips {
    ($($said:literal $name:ident { $($clause:tt)* })*) => {
        $(
            struct $name;

            impl Law for $name {
                $($clause)*
            }
        )*

        pub const SLIPS: [Slip; [$($said),*].len()] = [$(($said, take_by::<$name>)),*];
    };
}

slips! {
    // 30
    "no code is taken" NoCode {
        fn attribute(bytes: &[u8]) -> Option<Attribute<'_>> {
            let (length, from_code) = bytes.get(BEFORE_LENGTH..)?.split_first_chunk()?;
            Attribute::of_length(from_code, u32::from_be_bytes(*length) as usize)
        }
    }
    "the code's length is its lower half" ShortLength {
        fn attribute(bytes: &[u8]) -> Option<Attribute<'_>> {
            let from_code = bytes.get(BEFORE_LENGTH + 4..)?;
            let length = u16::from_be_bytes(*bytes.get(BEFORE_LENGTH + 2..)?.first_chunk()?);
            Attribute::of_length(from_code, usize::from(length)).filter(|a| !a.code.is_empty())
        }
    }
    "the table may lack its last catch type" NoCatchType {
        fn attribute(bytes: &[u8]) -> Option<Attribute<'_>> {
            Attribute::read(bytes).or_else(|| cut_attribute(bytes))
        }
    }
    "what stands behind the table must be there" AttributesWanted {
        fn attribute(bytes: &[u8]) -> Option<Attribute<'_>> {
            let behind = |a: &Attribute| a.code.len() + 2 + a.table.len();
            Attribute::read(bytes).filter(|a| behind(a) + 2 <= a.from_code.len())
        }
    }

    // 31
    "cut off by the input's end" CutByInput {
        fn readable<'a>(attribute: &Attribute<'a>) -> &'a [u8] {
            attribute.from_code
        }
    }
    "wide is passed over" WidePassed {
        fn opcode(byte: u8) -> u8 {
            instead(byte, java::WIDE, java::NOP)
        }
    }
    "ifeq is taken" Ifeq {
        fn opcode(byte: u8) -> u8 {
            instead(byte, java::IFEQ, java::IFNE)
        }
    }
    "iconst_1 is taken" Iconst1 {
        fn opcode(byte: u8) -> u8 {
            instead(byte, java::ICONST_1, java::ICONST_0)
        }
    }
    "aconst_null is taken" AconstNull {
        fn opcode(byte: u8) -> u8 {
            instead(byte, java::ACONST_NULL, java::ICONST_0)
        }
    }
    "fload is taken" Fload {
        fn opcode(byte: u8) -> u8 {
            instead(byte, java::FLOAD, java::ILOAD)
        }
    }
    "pop2 is taken" Pop2 {
        fn opcode(byte: u8) -> u8 {
            instead(byte, java::POP2, java::POP)
        }
    }
    "ireturn is taken" Ireturn {
        fn opcode(byte: u8) -> u8 {
            instead(byte, java::IRETURN, java::RETURN)
        }
    }
    "nop is not taken" NopRefused {
        fn opcode(byte: u8) -> u8 {
            instead(byte, java::NOP, java::WIDE)
        }
    }
    "short forms count from 1" ShortFormsFrom1 {
        fn short_form(number: u8) -> u8 {
            number + 1
        }
    }
    "a lock behind nops has its aload" LockBehindNop {
        fn loaded(variable: u8, size: u8, bytes: &[u8]) -> (Does, u8) {
            let behind = bytes.get(usize::from(size)..).unwrap_or_default();
            let nops = behind.iter().take_while(|&&byte| byte == java::NOP).count();
            let size = size.saturating_add(nops as u8);
            match AsWritten::loaded(variable, size, bytes) {
                (Does::Load(_), _) => (Does::Load(variable), size - nops as u8),
                pair => pair,
            }
        }
    }
    "a lock needs no aload" LoneLock {
        fn lone_lock(opcode: u8) -> Option<(Does, u8)> {
            match opcode {
                java::MONITORENTER => Some((Does::Enter(0), 1)),
                _ => Some((Does::Exit(0), 1)),
            }
        }
    }
    "an aload that has its lock serves another" AloadTwice {
        fn loaded(variable: u8, size: u8, bytes: &[u8]) -> (Does, u8) {
            match AsWritten::loaded(variable, size, bytes) {
                (Does::Enter(v), size) => match bytes.get(usize::from(size)) {
                    Some(&java::MONITORENTER) => (Does::Enter(v), size + 1),
                    _ => (Does::Enter(v), size),
                },
                other => other,
            }
        }
    }
    "an iload has a lock too" IloadPairs {
        fn opcode(byte: u8) -> u8 {
            match byte {
                java::ILOAD_0..=java::ILOAD_3 => byte - java::ILOAD_0 + java::ALOAD_0,
                byte => instead(byte, java::ILOAD, java::ALOAD),
            }
        }
    }
    "iinc by anything" IincByAny {
        fn increases(_by: u8) -> bool {
            true
        }
    }
    "iinc by -1" IincByMinus1 {
        fn increases(by: u8) -> bool {
            by == 1 || by == 255
        }
    }
    "the ninth place is read" NinthPlace {
        const PLACES: usize = 9;
    }
    "seven places are read" SevenPlaces {
        const PLACES: usize = 7;
    }
    "the last place of an index" LastPlace {
        fn class_number(classes: &[u16], index: u16) -> Option<u8> {
            let read = classes.iter().take(8);
            let found = read.zip(0..).filter(|&(&class, _)| class == index);
            found.last().map(|(_, number)| number)
        }
    }
    "class numbers count from 1" ClassesFrom1 {
        fn class_number(classes: &[u16], index: u16) -> Option<u8> {
            AsWritten::class_number(classes, index).map(|number| number + 1)
        }
    }
    "the lower byte of an index" LowerIndex {
        fn class_number(classes: &[u16], index: u16) -> Option<u8> {
            let read = classes.iter().take(8);
            let mut lower = read.map(|class| class & 0xFF).zip(0..);
            lower.find(|(class, _)| *class == index & 0xFF).map(|(_, number)| number)
        }
    }
    "a class that is missing is the first" MissingIsFirst {
        fn class_number(classes: &[u16], index: u16) -> Option<u8> {
            Some(AsWritten::class_number(classes, index).unwrap_or(0))
        }
    }
    "31 names the instruction before" NamedBefore {
        fn unread(_attribute: &Attribute, read: &Method, at: u32) -> Answer {
            Answer::refused(31, read.instructions.last().map_or(at, |i| i.at))
        }
    }
    "a handler behind the code comes before 31" HandlerBefore31 {
        fn unread(attribute: &Attribute, _read: &Method, at: u32) -> Answer {
            let behind = |e: &Entry| usize::from(e.handler) >= attribute.code.len();
            match attribute.entries().find(behind) {
                Some(entry) => Answer::refused(32, u32::from(entry.handler)),
                None => Answer::refused(31, at),
            }
        }
    }

    // 32
    "distances are not negative" Forwards {
        fn target(at: u32, distance: i16) -> i64 {
            i64::from(at) + i64::from(distance as u16)
        }
    }
    "distances count from the instruction behind" FromBehind {
        fn target(at: u32, distance: i16) -> i64 {
            AsWritten::target(at, distance) + 3
        }
    }
    "any byte of an instruction is a target" AnyByte {
        fn address(method: &Method, target: i64) -> Option<u32> {
            method.address(target).or_else(|| inside(method, target, |_| true))
        }
    }
    "the lock byte of a pair is a target" LockByte {
        fn address(method: &Method, target: i64) -> Option<u32> {
            let lock = |i: &Instruction| {
                i.does.is_pair() && target == i64::from(AsWritten::covered(i))
            };
            method.address(target).or_else(|| inside(method, target, lock))
        }
    }
    "a nop with nothing behind it is a target" LastNop {
        fn address(method: &Method, target: i64) -> Option<u32> {
            let address = *method.addresses.get(usize::try_from(target).ok()?)?;
            (address > 0).then_some(address)
        }
    }
    "no nop is a target" NoNop {
        fn address(method: &Method, target: i64) -> Option<u32> {
            let nop = |i: &Instruction| i.does == Does::Nop && i64::from(i.at) == target;
            method.address(target).filter(|_| !method.instructions.iter().any(nop))
        }
    }
    "the code's end is a target" CodeEnd {
        fn address(method: &Method, target: i64) -> Option<u32> {
            match target == method.addresses.len() as i64 {
                true => Some(method.count + 1),
                false => method.address(target),
            }
        }
    }
    "handlers before branches" HandlersFirst {
        fn places(method: &Method) -> Result<(), Answer> {
            Self::handlers(method)?;
            Self::branches(method)
        }
    }
    "a branch by its target" BranchByTarget {
        fn named_branch(_at: u32, target: i64) -> u32 {
            target as u32
        }
    }
    "an entry by its start" EntryByStart {
        fn named_entry(entry: &Entry) -> u32 {
            u32::from(entry.start)
        }
    }
    "handlers of empty ranges are not looked at" EmptyRanges {
        fn looks_at(_method: &Method, entry: &Entry) -> bool {
            entry.start < entry.end
        }
    }
    "handlers that nothing is thrown to are not looked at" UnusedHandlers {
        fn looks_at(method: &Method, entry: &Entry) -> bool {
            let throwing = |i: &&Instruction| AsWritten::throws(i.does);
            let covered = |i: &Instruction| AsWritten::covers(entry, AsWritten::covered(i));
            method.instructions.iter().filter(throwing).any(covered)
        }
    }
    "33 before 32" NumberFirst {
        fn judge(method: &Method, room: usize) -> Result<(), Answer> {
            Self::number(method)?;
            Self::places(method)?;
            Self::room(method, room)
        }
    }

    // 33 and 34
    "34 before 33" RoomBeforeNumber {
        fn judge(method: &Method, room: usize) -> Result<(), Answer> {
            Self::places(method)?;
            Self::room(method, room)?;
            Self::number(method)
        }
    }
    "34 before 32" RoomFirst {
        fn judge(method: &Method, room: usize) -> Result<(), Answer> {
            Self::number(method).is_err().then_some(()).map_or_else(
                || Self::room(method, room),
                Ok,
            )?;
            AsWritten::judge(method, room)
        }
    }
    "257 instructions" Most257 {
        const MOST: u32 = 257;
    }
    "255 instructions" Most255 {
        const MOST: u32 = 255;
    }
    "an iinc fits in part" InPart {
        fn fits(instruction: &Instruction, most: u32) -> bool {
            instruction.does == Does::Nop || instruction.before < most
        }
    }
    "a row fits in part" RowInPart {
        fn rows_in(room: usize) -> usize {
            room.div_ceil(4)
        }
    }
    "the last instruction is named" LastNamed {
        fn named(method: &Method, instruction: &Instruction) -> u32 {
            method.instructions.last().unwrap_or(instruction).at
        }
    }
    "a pair is named by its lock" PairByLock {
        fn named(_method: &Method, instruction: &Instruction) -> u32 {
            AsWritten::covered(instruction)
        }
    }
    "the instruction behind is named" NamedBehind {
        fn named(_method: &Method, instruction: &Instruction) -> u32 {
            instruction.at + u32::from(instruction.size)
        }
    }

    // What is written
    "a range's end counts" EndCounts {
        fn covers(entry: &Entry, offset: u32) -> bool {
            (u32::from(entry.start)..=u32::from(entry.end)).contains(&offset)
        }
    }
    "a range's start does not count" StartDoesNot {
        fn covers(entry: &Entry, offset: u32) -> bool {
            AsWritten::covers(entry, offset) && offset != u32::from(entry.start)
        }
    }
    "the last entry that covers" LastCovering {
        fn covering<'a>(entries: &'a [Entry], offset: u32) -> Option<&'a Entry> {
            entries.iter().rev().find(|entry| Self::covers(entry, offset))
        }
    }
    "only the first entry covers" FirstEntry {
        fn covering<'a>(entries: &'a [Entry], offset: u32) -> Option<&'a Entry> {
            entries.first().filter(|entry| Self::covers(entry, offset))
        }
    }
    "catch types are read" CatchTypes {
        fn covering<'a>(entries: &'a [Entry], offset: u32) -> Option<&'a Entry> {
            entries.iter().find(|entry| entry.catch == 0 && Self::covers(entry, offset))
        }
    }
    "a pair is covered as its aload is" ByAload {
        fn covered(instruction: &Instruction) -> u32 {
            instruction.at
        }
    }
    "monitorexit carries a handler" ExitThrows {
        fn throws(does: Does) -> bool {
            AsWritten::throws(does) || matches!(does, Does::Exit(_))
        }
    }
    "return carries a handler" ReturnThrows {
        fn throws(does: Does) -> bool {
            AsWritten::throws(does) || does == Does::Return
        }
    }
    "monitorenter carries none" EnterDoesNot {
        fn throws(does: Does) -> bool {
            AsWritten::throws(does) && !matches!(does, Does::Enter(_))
        }
    }
    "new carries none" NewDoesNot {
        fn throws(does: Does) -> bool {
            AsWritten::throws(does) && !matches!(does, Does::New(_))
        }
    }
    "athrow carries none" AthrowDoesNot {
        fn throws(does: Does) -> bool {
            AsWritten::throws(does) && does != Does::Athrow
        }
    }
    "addresses count from 0" From0 {
        fn address(method: &Method, target: i64) -> Option<u32> {
            method.address(target).map(|address| address - 1)
        }
    }
    "addresses count nops" CountsNops {
        fn address(method: &Method, target: i64) -> Option<u32> {
            let nop = |i: &&Instruction| i.does == Does::Nop && i64::from(i.at) < target;
            let nops = method.instructions.iter().filter(nop).count();
            method.address(target).map(|address| address + nops as u32)
        }
    }
    "addresses count a pair as two" PairAsTwo {
        fn address(method: &Method, target: i64) -> Option<u32> {
            let pair = |i: &&Instruction| i.does.is_pair() && i64::from(i.at) < target;
            let pairs = method.instructions.iter().filter(pair).count();
            method.address(target).map(|address| address + pairs as u32)
        }
    }
    "addresses count iinc as one" IincAsOne {
        fn address(method: &Method, target: i64) -> Option<u32> {
            let iinc = |i: &&Instruction| i.does.yields() == 3 && i64::from(i.at) < target;
            let iincs = method.instructions.iter().filter(iinc).count();
            method.address(target).map(|address| address - 2 * iincs as u32)
        }
    }
    "iinc stores before it adds" StoresFirst {
        fn increase(variable: u8) -> [Row; 3] {
            let [load, inc, store] = AsWritten::increase(variable);
            [load, store, inc]
        }
    }
    "iinc is of variable 0" IincOf0 {
        fn increase(_variable: u8) -> [Row; 3] {
            AsWritten::increase(0)
        }
    }
    "monitorexit for monitorenter" Swapped {
        fn row(does: Does, address: u16) -> Row {
            match does {
                Does::Enter(v) => [8, v, 0, 0],
                does => does.row(address),
            }
        }
    }
    "addresses with their low byte first" LowByteFirst {
        fn row(does: Does, address: u16) -> Row {
            does.row(address.swap_bytes())
        }
    }
    "the rest of the buffer is cleared" RestCleared {
        fn write(rows: &[Row], out: &mut [u8]) {
            out.fill(0);
            AsWritten::write(rows, out);
        }
    }
    "a refusal clears the buffer" RefusalClears {
        fn leave(_refusal: Answer, out: &mut [u8]) {
            out.fill(0);
        }
    }
    "a 34 fills the buffer" RoomFilled {
        fn leave(refusal: Answer, out: &mut [u8]) {
            if refusal.number == 34 {
                out.fill(4);
            }
        }
    }
}

fn instead(byte: u8, of: u8, other: u8) -> u8 {
    match byte == of {
        true => other,
        false => byte,
    }
}

/// An attribute that ends two bytes too soon, without those of its last entry.
fn cut_attribute(bytes: &[u8]) -> Option<Attribute<'_>> {
    let (length, from_code) = bytes.get(BEFORE_LENGTH..)?.split_first_chunk()?;
    let (code, behind) = from_code.split_at_checked(u32::from_be_bytes(*length) as usize)?;
    let (count, table) = behind.split_first_chunk()?;
    let whole = 8 * usize::from(u16::from_be_bytes(*count));
    (table.len() + 2 == whole && !code.is_empty()).then_some(Attribute {
        code,
        table,
        from_code,
    })
}

/// The address of the instruction that has this byte, if it is such a one.
fn inside(method: &Method, target: i64, is: impl Fn(&Instruction) -> bool) -> Option<u32> {
    let has =
        |i: &Instruction| (i64::from(i.at)..i64::from(i.at) + i64::from(i.size)).contains(&target);
    let mut found = method.instructions.iter();
    found.find(|i| has(i) && is(i)).map(|i| i.before + 1)
}
