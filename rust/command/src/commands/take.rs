//! `take FILE OUT INDICES`: a method taken from a class file.

use super::Command;
use crate::input::Input;
use crate::report::Report;
use hveitmar::MOST_TAKEN;
use std::ffi::{OsStr, OsString};

pub const COMMAND: Command = Command {
    name: "take",
    words: "FILE OUT INDICES [--room BYTES]",
    summary: "Takes a method from its Code attribute.",
    help: "\
A FILE has a Code attribute as a class file has it, from the index of its name
on; what comes behind its exception table is not read. A FILE of - is standard
input. OUT is where the instructions go, four bytes each, as a record has them.
INDICES are those of classes in the constant pool, joined by commas: the first
is class 0, and eight are read. They may be empty, as '' is.

Taken are nop, pop, iconst_0, iload, aload, istore and astore with their short
forms, ifne, monitorenter and monitorexit directly after an aload, new, athrow,
return, and iinc by 1.

The line is the proved library's: taken and how many, or refused, a number and
the offset of the first offender in the code; OUT is then left alone. 30: the
attribute is cut short, or has no code; 31: an opcode that is not taken, an
instruction that is cut off, a class that is not in the list; 32: a branch or
a handler to a place where none begins; 33: more than 256; 34: more than there
is room for, which is BYTES, or 1024.

Status 0: taken; 1: refused; 2: a bad command line or file.",
    run,
};

const ROOM: &str = "--room";

fn run(words: &[OsString]) -> Result<Report, String> {
    let (words, room) = without_room(words)?;
    let [file, out, indices] = three(&words)?;
    let classes = indices_of(indices)?;
    let attribute = Input::read_class(file)?.bytes;
    let mut buffer = vec![0; room];
    Ok(match hveitmar::take(&attribute, &classes, &mut buffer) {
        Ok(count) => {
            buffer.truncate(4 * count);
            write(out, &buffer)?;
            Report::done(format!("taken {count}\n"))
        }
        Err(refusal) => Report::refused(format!("{refusal}\n")),
    })
}

/// The words without the option, and how many bytes there is room for. More
/// than all that is ever written makes no difference.
fn without_room(words: &[OsString]) -> Result<(Vec<&OsStr>, usize), String> {
    let mut rest = vec![];
    let mut room = 4 * MOST_TAKEN;
    let mut words = words.iter();
    while let Some(word) = words.next() {
        if word == ROOM {
            let said = words.next().and_then(|word| word.to_str());
            let bytes = said.and_then(|text| text.parse::<u64>().ok());
            let bytes = bytes.ok_or_else(|| COMMAND.complaint("--room wants a number of bytes"))?;
            room = usize::try_from(bytes).map_or(4 * MOST_TAKEN, |b| b.min(4 * MOST_TAKEN));
        } else {
            rest.push(word.as_os_str());
        }
    }
    Ok((rest, room))
}

fn three<'a>(words: &[&'a OsStr]) -> Result<[&'a OsStr; 3], String> {
    match *words {
        [_, out, _] if out == "-" => Err(COMMAND.complaint("OUT is a file, and no -")),
        [file, out, indices] => Ok([file, out, indices]),
        [] => Err(COMMAND.complaint("no file")),
        [_] => Err(COMMAND.complaint("no OUT")),
        [_, _] => Err(COMMAND.complaint("no indices")),
        _ => Err(COMMAND.complaint("more than three words")),
    }
}

fn indices_of(word: &OsStr) -> Result<Vec<u16>, String> {
    let text = word.to_string_lossy();
    if text.is_empty() {
        return Ok(vec![]);
    }
    let index = |part: &str| {
        let wrong = || COMMAND.complaint(&format!("{part:?} is no index, 0 to 65535"));
        let digits = part.bytes().all(|byte| byte.is_ascii_digit());
        let index = part.parse::<u16>().ok().filter(|_| digits);
        index.ok_or_else(wrong)
    };
    text.split(',').map(index).collect()
}

fn write(out: &OsStr, bytes: &[u8]) -> Result<(), String> {
    let failed = |error| format!("{}: cannot be written: {error}", out.to_string_lossy());
    std::fs::write(out, bytes).map_err(failed)
}
