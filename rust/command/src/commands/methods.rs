//! `methods FILE`: a class file's methods, and whether they can be taken.

use super::Command;
use crate::input::Input;
use crate::report::Report;
use classfile::{instructions, opcode_name, ClassFile, Code, Member};
use hveitmar::{TakeRefusal, MOST_TAKEN};
use std::ffi::OsString;

pub const COMMAND: Command = Command {
    name: "methods",
    words: "FILE",
    summary: "Lists a class file's methods, and what take says of each.",
    help: "\
A FILE is a class file; - is standard input. For each method stand the offset
of its Code attribute in the file, how many bytes of code it has, and what take
says of it: how many instructions are taken, or the refusal's number, the offset
of the first offender in the code, and what stands there. From that offset of
the file on, take reads the attribute:

    tail -c +OFFSET FILE | hveitmar take - OUT INDICES

where OFFSET is one more, since tail counts from 1. The INDICES are those that
are listed first: the classes that the file's methods make, in the order in
which they do, eight at most.

What take says is proved; how a class file is read is tested, not proved.

Status 0: listed; 2: a bad command line or file, or a file that is damaged, of
which a line on standard error tells, with its offset.",
    run,
};

/// The opcodes that are told apart here.
const NEW: u8 = 0xBB;
const IFNE: u8 = 0x9A;

/// So many classes a bundle has at most.
const MOST_CLASSES: usize = 8;

fn run(words: &[OsString]) -> Result<Report, String> {
    let Input { name, bytes } = Input::read_class(COMMAND.only_file(words)?)?;
    let class = ClassFile::read(&bytes).map_err(|damage| format!("{name}: {damage}"))?;
    let made = classes_made(&class);
    let (major, minor) = class.version;
    let classes: Vec<String> = made
        .iter()
        .map(|&index| class_text(&class, index))
        .collect();
    let classes = match classes.is_empty() {
        true => "none".to_string(),
        false => classes.join(", "),
    };
    Ok(Report::done(format!(
        "{name}: class {}, version {major}.{minor}\n\nclasses: {classes}\n\n{}",
        class.name,
        table(&class, &made)
    )))
}

/// The classes that the methods make, by their indices.
fn classes_made(class: &ClassFile) -> Vec<u16> {
    let mut made = vec![];
    for code in class
        .methods
        .iter()
        .filter_map(|method| method.code.as_ref())
    {
        let news = instructions(code.bytes).filter(|i| i.opcode == NEW);
        for index in news.filter_map(|new| new.operand(1)) {
            if !made.contains(&index) && made.len() < MOST_CLASSES {
                made.push(index);
            }
        }
    }
    made
}

fn class_text(class: &ClassFile, index: u16) -> String {
    match class.constants.class(index) {
        Some(name) => format!("{index} {name}"),
        None => index.to_string(),
    }
}

fn table(class: &ClassFile, made: &[u16]) -> String {
    let mut lines = vec![["method", "attribute at", "code", "take"]
        .map(String::from)
        .to_vec()];
    lines.extend(class.methods.iter().map(|method| line(method, made)));
    listing::columns(&lines)
}

fn line(method: &Member, made: &[u16]) -> Vec<String> {
    let name = format!("{}{}", method.name, method.descriptor);
    match &method.code {
        Some(code) => vec![
            name,
            code.at.to_string(),
            code.bytes.len().to_string(),
            said(code, made),
        ],
        None => vec![
            name,
            "-".to_string(),
            "-".to_string(),
            "no code".to_string(),
        ],
    }
}

/// What take says of a method, and what stands at the offset that it names.
fn said(code: &Code, made: &[u16]) -> String {
    match hveitmar::take(code.attribute, made, &mut [0; 4 * MOST_TAKEN]) {
        Ok(count) => format!("taken {count}"),
        Err(TakeRefusal::Input) => "30: no code".to_string(),
        Err(refusal) => {
            let (number, offset) = (refusal.number(), refusal.offset());
            format!("{number} at {offset}: {}", there(code, refusal))
        }
    }
}

/// The offender in a word. A handler that goes astray never goes to the first
/// byte of an ifne, so an ifne there is the offender itself.
fn there(code: &Code, refusal: TakeRefusal) -> String {
    let opcode = code.bytes.get(refusal.offset() as usize);
    match (refusal, opcode) {
        (TakeRefusal::Place { .. }, Some(&IFNE)) if begins(code, refusal.offset()) => {
            "ifne".to_string()
        }
        (TakeRefusal::Place { .. }, _) => "handler".to_string(),
        (_, Some(&opcode)) => match opcode_name(opcode) {
            Some(name) => name.to_string(),
            None => format!("opcode {opcode}"),
        },
        (_, None) => "nothing".to_string(),
    }
}

/// Whether an instruction begins there.
fn begins(code: &Code, offset: u32) -> bool {
    instructions(code.bytes).any(|i| i.at == offset as usize)
}
