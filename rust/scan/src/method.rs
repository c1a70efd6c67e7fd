//! One method judged: its skeleton goes to the judge, and of a refused one a shortest faulty way is told.

use crate::flow::Flow;
use crate::strata::Features;
use classfile::{Code, Constant, Constants, Member};
use skeleton::automaton::{automaton, Automaton, Operation};
use skeleton::instruction::{decoded, op, Instruction};
use skeleton::layout::{Parts, Skeleton};
use skeleton::reduction::reduced;
use skeleton::value::{values, Name, Values};
use skeleton::witness::{witness, Fault, Witness};
use skeleton::{Catch, Loaded, Method, Obstacle, Pool, Range, Throws};

/// Whether a method of the language is accepted; `Err` is a refusal for another reason than its locks, in words.
pub type Judge<'a> = &'a (dyn Fn(&Parts) -> Result<bool, String> + Sync);

/// What is said of a method that has monitor instructions.
#[derive(Clone, Debug)]
pub enum Judgement {
    Accepted,
    Refused(Finding),
    NotJudged(Obstacle),
}

/// A place in a method. Line 0 is not known.
#[derive(Clone, Copy, Debug, PartialEq, Eq)]
pub struct Place {
    pub offset: u32,
    pub line: u16,
}

/// How a way goes on from a place.
#[derive(Clone, Copy, Debug, PartialEq, Eq)]
pub enum Onward {
    /// To the next instruction.
    Next,
    /// A branch that jumps.
    Jump,
    /// A throw, to a handler.
    Throw,
    /// The method returns.
    Return,
    /// A throw that nothing catches.
    Uncaught,
}

/// One step of a way: an instruction, how often the lock is held before it, and how the way goes on.
#[derive(Clone, Copy, Debug, PartialEq, Eq)]
pub struct Step {
    pub place: Place,
    pub opcode: u8,
    pub held: u8,
    pub onward: Onward,
}

/// What is wrong with a method.
#[derive(Clone, Debug)]
pub struct Finding {
    pub fault: Fault,
    /// The lock, in words.
    pub lock: String,
    /// Where it was taken last.
    pub taken: Option<Place>,
    /// Where it was released before.
    pub released: Option<Place>,
    /// The first step after which no way is right any more.
    pub turn: Option<Step>,
    /// A shortest faulty way.
    pub way: Vec<Step>,
    /// The method's flow.
    pub flow: Flow,
}

struct ConstantPool<'a>(&'a Constants<'a>);

impl Pool for ConstantPool<'_> {
    fn loaded(&self, index: u16) -> Option<Loaded> {
        Some(match self.0.get(index)? {
            Constant::Integer(_) | Constant::Float(_) => Loaded::Number,
            Constant::String(_) => Loaded::Text,
            Constant::Class(_) => Loaded::Class(self.0.class(index)?),
            Constant::MethodHandle(..) | Constant::MethodType(_) | Constant::Dynamic(_) => {
                Loaded::Resolved
            }
            _ => return None,
        })
    }

    fn member(&self, index: u16) -> Option<skeleton::Member> {
        let (owner, name, descriptor) = match self.0.get(index)? {
            Constant::InvokeDynamic(r) => {
                let (name, descriptor) = self.0.name_and_type(r.second)?;
                (String::new(), name, descriptor)
            }
            _ => self.0.member(index)?,
        };
        Some(skeleton::Member {
            owner,
            name,
            descriptor,
        })
    }
}

/// Whether the code has a monitor instruction.
pub fn has_monitors(code: &Code) -> bool {
    let lock = |b: u8| matches!(b, op::MONITORENTER | op::MONITOREXIT);
    code.bytes.iter().any(|&b| lock(b))
        && classfile::instructions(code.bytes).any(|i| lock(i.opcode))
}

/// A method's automaton, its instructions and their names.
struct Made<'a> {
    method: Method<'a>,
    all: Vec<Instruction>,
    values: Values,
    plain: Automaton,
}

fn made<'a>(method: Method<'a>, throws: &Throws) -> Result<Made<'a>, Obstacle> {
    let all = decoded(&method)?;
    let values = values(&method, &all, throws)?;
    let plain = automaton(&method, &all, &values, throws, false)?;
    Ok(Made {
        method,
        all,
        values,
        plain,
    })
}

/// Whether an automaton is accepted; one past the language's limits is judged lock by lock.
fn accepted(g: &Automaton, judge: Judge) -> Result<bool, Obstacle> {
    let one = |g: &Automaton| {
        let skeleton =
            Skeleton::of(&reduced(g)).map_err(|large| Obstacle::new(0, large.to_string()))?;
        judge(&skeleton.parts()).map_err(|why| Obstacle::new(0, why))
    };
    let small = reduced(g);
    if let Ok(skeleton) = Skeleton::of(&small) {
        return judge(&skeleton.parts()).map_err(|why| Obstacle::new(0, why));
    }
    if g.has_moves() {
        return Err(Obstacle::new(
            0,
            "its skeleton is too large, and references meet in it",
        ));
    }
    for v in g.names() {
        if !one(&g.of_name(v))? {
            return Ok(false);
        }
    }
    Ok(true)
}

fn judged_made(made: &Made, throws: &Throws, judge: Judge) -> Result<Judgement, Obstacle> {
    if accepted(&made.plain, judge)? {
        return Ok(Judgement::Accepted);
    }
    let joined = made
        .plain
        .names()
        .iter()
        .any(|v| matches!(v, Name::Join(..)));
    if joined {
        let moving = automaton(&made.method, &made.all, &made.values, throws, true)?;
        if moving.has_moves() {
            if accepted(&moving, judge)? {
                return Ok(Judgement::Accepted);
            }
            if let Some(w) = witness(&moving) {
                return Ok(Judgement::Refused(finding(made, &moving, &w)));
            }
        }
    }
    match witness(&made.plain) {
        Some(w) => Ok(Judgement::Refused(finding(made, &made.plain, &w))),
        None => Err(Obstacle::new(
            0,
            "it is refused, and no faulty way was found",
        )),
    }
}

/// What is said of a method's code, and what happens in it while a lock is held.
pub fn judged(
    class: &str,
    member: &Member,
    code: &Code,
    constants: &Constants,
    throws: &Throws,
    judge: Judge,
) -> (Judgement, Option<Features>) {
    let caught = |index: u16| match index {
        0 => Catch::All,
        _ => constants
            .class(index)
            .map_or(Catch::Other, |name| Catch::of(Some(&name))),
    };
    let range = |h: &classfile::Handler| Range {
        start: h.start,
        end: h.end,
        handler: h.handler,
        catch: caught(h.catch),
    };
    let handlers: Vec<Range> = code.handlers.iter().map(range).collect();
    let lines: Vec<(u16, u16)> = code.lines.iter().map(|l| (l.offset, l.line)).collect();
    let method = Method {
        is_static: member.access & 8 != 0,
        descriptor: &member.descriptor,
        max_locals: code.max_locals,
        code: code.bytes,
        handlers: &handlers,
        lines: &lines,
        pool: &ConstantPool(constants),
    };
    match made(method, throws) {
        Err(obstacle) => (Judgement::NotJudged(obstacle), None),
        Ok(made) => {
            let features = Features::of(&made.all, &made.plain, |v| made.class_of(class, v));
            let said = judged_made(&made, throws, judge).unwrap_or_else(Judgement::NotJudged);
            (said, Some(features))
        }
    }
}

impl Made<'_> {
    /// The class that a reference is declared with, in a method of a class.
    fn class_of(&self, class: &str, name: Name) -> Option<String> {
        let declared = |text: &str| {
            text.strip_prefix('L')
                .and_then(|t| t.strip_suffix(';'))
                .map(str::to_owned)
        };
        match name {
            Name::Argument(0) if !self.method.is_static => Some(class.to_owned()),
            Name::Argument(slot) => {
                let told = classfile::MethodDescriptor::read(self.method.descriptor)?;
                let mut at = u16::from(!self.method.is_static);
                for argument in &told.arguments {
                    if at == slot {
                        return match argument {
                            classfile::Type::Class(name) => Some(name.clone()),
                            _ => None,
                        };
                    }
                    at += argument.size();
                }
                None
            }
            Name::Class(_) => Some("java/lang/Class".to_owned()),
            Name::Made(at) => {
                let i = self.all.iter().find(|i| i.at == at)?;
                match i.op {
                    op::NEW => match self.method.pool.loaded(i.operand)? {
                        Loaded::Class(name) => Some(name),
                        _ => None,
                    },
                    op::GETSTATIC..=op::INVOKEDYNAMIC => {
                        let member = self.method.pool.member(i.operand)?;
                        declared(member.descriptor.rsplit(')').next()?)
                    }
                    _ => None,
                }
            }
            _ => None,
        }
    }

    fn place(&self, k: usize) -> Place {
        let i = &self.all[k];
        Place {
            offset: i.offset(),
            line: i.line,
        }
    }

    fn at(&self, at: u32) -> String {
        let line = self.all.iter().find(|i| i.at == at).map_or(0, |i| i.line);
        match line {
            0 => format!("at offset {}", at % 65_536),
            line => format!("at line {line}"),
        }
    }

    /// A reference in words.
    fn named(&self, name: Name) -> String {
        match name {
            Name::Argument(0) if !self.method.is_static => "this".to_owned(),
            Name::Argument(n) => format!("the argument in variable {n}"),
            Name::Class(k) => match self.values.classes.name(k) {
                Some(class) => format!("{}.class", class.replace('/', ".")),
                None => "a class constant".to_owned(),
            },
            Name::Made(at) => format!("the reference fetched {}", self.at(at)),
            Name::Caught(at) => format!("the exception caught {}", self.at(at)),
            Name::Stale(at, _) => format!("a reference fetched earlier {}", self.at(at)),
            Name::Join(at, _) => format!(
                "not one known reference (several ways meet {})",
                self.at(at)
            ),
            Name::Unknown(at) => format!("not one known reference (used {})", self.at(at)),
            Name::Fresh => "a reference that nothing locks".to_owned(),
        }
    }
}

/// The instruction of a node: a node of an automaton that is not reduced stands for one.
fn instruction(g: &Automaton, n: usize) -> Option<usize> {
    g.origins[n].first().copied()
}

/// How a way goes from one instruction to the node that comes next.
fn onward(made: &Made, from: usize, to: Option<usize>) -> Onward {
    let i = &made.all[from];
    match to {
        None if i.returns() => Onward::Return,
        None => Onward::Uncaught,
        Some(k) if i.next == Some(k) => Onward::Next,
        Some(k) if i.targets.contains(&k) => Onward::Jump,
        Some(_) => Onward::Throw,
    }
}

fn finding(made: &Made, g: &Automaton, w: &Witness) -> Finding {
    let mut way: Vec<Step> = Vec::new();
    let mut held = 0u8;
    let mut turn = None;
    // Nodes of one instruction (a throw before the effect, the effect, moves) are one step.
    let mut k = 0;
    while k < w.way.len() {
        let Some(from) = instruction(g, w.way[k]) else {
            break;
        };
        let before = held;
        let mut last = k;
        while last + 1 < w.way.len() && instruction(g, w.way[last + 1]) == Some(from) {
            last += 1;
        }
        for &n in &w.way[k..=last] {
            if w.turn.is_some_and(|(at, _)| at == Some(n)) {
                turn = Some(way.len());
            }
            held = match g.operations[n] {
                Operation::Enter(v) if v == w.name => held.saturating_add(1),
                Operation::Exit(v) if v == w.name => held.saturating_sub(1),
                _ => held,
            };
        }
        let to = w.way.get(last + 1).and_then(|&n| instruction(g, n));
        let ends = last + 1 < w.way.len() || w.fault == Fault::Kept;
        let onward = if ends {
            onward(made, from, to)
        } else {
            Onward::Next
        };
        way.push(Step {
            place: made.place(from),
            opcode: made.all[from].op,
            held: before,
            onward,
        });
        k = last + 1;
    }
    let place = |n: Option<usize>| n.and_then(|n| instruction(g, n)).map(|k| made.place(k));
    Finding {
        fault: w.fault,
        lock: made.named(w.name),
        taken: place(w.taken),
        released: place(w.released),
        turn: turn.and_then(|k| way.get(k).copied()),
        way,
        flow: Flow::of(&made.all, g, w.name),
    }
}
