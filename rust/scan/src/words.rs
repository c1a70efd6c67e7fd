//! What is wrong, in words.

use crate::method::{Finding, Onward, Place, Step};
use skeleton::witness::Fault;
use std::fmt::Write;

pub(crate) fn at(place: Place) -> String {
    match place.line {
        0 => format!("offset {}", place.offset),
        line => format!("line {line}"),
    }
}

/// One sentence: what happens to the lock, and where.
pub fn sentence(found: &Finding) -> String {
    let taken = found.taken.map_or_else(
        || "the lock".to_owned(),
        |p| format!("the lock taken at {}", at(p)),
    );
    let last = found.way.last();
    match (found.fault, last) {
        (Fault::Kept, Some(step)) if step.onward == Onward::Return => {
            format!(
                "{taken} is still held when the method returns at {}",
                at(step.place)
            )
        }
        (Fault::Kept, Some(step)) => {
            format!(
                "{taken} is still held when an exception leaves the method at {}",
                at(step.place)
            )
        }
        (Fault::Kept, None) => format!("{taken} is still held at the end"),
        (Fault::NotHeld, Some(step)) => match found.released {
            Some(before) => {
                format!(
                    "the lock is released at {} though it was released at {} already",
                    at(step.place),
                    at(before)
                )
            }
            None => format!(
                "the lock is released at {} though it is not held",
                at(step.place)
            ),
        },
        (Fault::NotHeld, None) => "a lock is released that is not held".to_owned(),
        (Fault::Growing, _) => format!("{taken} is taken again and again, and not given back"),
    }
}

/// Which arm or throw leads there: the step at which it goes wrong, where that is a branch or a throw; else the last one before it.
pub fn turn(found: &Finding) -> Option<String> {
    let wrong = found.turn?;
    let upto = found.way.iter().position(|step| *step == wrong)?;
    let before = &found.way[..=upto];
    let step = *before.iter().rev().find(|step| is_choice(step))?;
    let how = if step == wrong {
        "it goes wrong where"
    } else {
        "it is on the way where"
    };
    let place = at(step.place);
    Some(match step.onward {
        Onward::Throw => format!("{how} {} throws at {place}", instruction(step)),
        Onward::Uncaught => format!(
            "{how} {} throws at {place}, which nothing catches",
            instruction(step)
        ),
        Onward::Jump => format!("{how} the branch at {place} is taken"),
        Onward::Next | Onward::Return => format!("{how} the branch at {place} is not taken"),
    })
}

fn is_choice(step: &Step) -> bool {
    is_branch(step.opcode) || matches!(step.onward, Onward::Throw | Onward::Uncaught)
}

fn is_branch(opcode: u8) -> bool {
    matches!(opcode, 153..=166 | 170 | 171 | 198 | 199)
}

fn instruction(step: Step) -> &'static str {
    classfile::opcode_name(step.opcode).unwrap_or("an instruction")
}

/// The lines of the way, each once where several steps of it follow one another, with what happens there.
pub fn way(found: &Finding) -> String {
    let mut out = String::new();
    let mut last = None;
    for (k, step) in found.way.iter().enumerate() {
        let here = match step.place.line {
            0 => format!("@{}", step.place.offset),
            line => line.to_string(),
        };
        let repeated = last.as_ref() == Some(&here);
        if !repeated {
            if k > 0 {
                out.push_str(" > ");
            }
            out.push_str(&here);
        }
        let said = match (step.opcode, step.onward) {
            (194, _) => Some("takes"),
            (195, _) => Some("releases"),
            (_, Onward::Throw) => Some("throws"),
            (_, Onward::Uncaught) => Some("throws, uncaught"),
            (_, Onward::Return) => Some("returns"),
            (op, Onward::Jump) if is_branch(op) => Some("jumps"),
            _ => None,
        };
        if let Some(word) = said {
            let _ = write!(out, " ({word})");
        }
        last = Some(here);
    }
    out
}
