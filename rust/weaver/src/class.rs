//! A class and its method, written line by line.

use crate::Instruction;

/// What an argument or a field is.
#[derive(Clone, Copy, Debug, PartialEq, Eq)]
pub enum Descriptor {
    /// An integer.
    Int,
    /// A reference of this class; a field's may be null.
    Class(u8),
}

/// What a variable or a stack place is known to hold.
#[derive(Clone, Copy, Debug, PartialEq, Eq)]
pub enum Kind {
    /// An integer.
    Int,
    /// Anything: nothing is known of it, and nothing is owed.
    Top,
    /// A reference of this class. What is owed to its lock is worked out.
    Reference(u8),
    /// A reference of this class that may be null.
    Nullable(u8),
}

/// A class: its arguments and fields, and its method.
///
/// It has as many variables as its longest line names, and at least one for each
/// argument; those that a line does not name are `Top`. Its stack is as deep as that
/// of its deepest line.
///
/// ```
/// use weaver::{Bundle, Class, Descriptor, Instruction::*, Kind::*};
///
/// let main = Class::new().line(Return, &[], &[]);
/// // Takes the lock of its argument, if it is not null, and gives it back.
/// let locking = Class::new()
///     .argument(Descriptor::Class(0))
///     .line(MonitorEnter(0, None), &[Nullable(0)], &[])
///     .line(MonitorExit(0), &[Reference(0)], &[])
///     .line(Return, &[], &[]);
/// assert!(Bundle::new().class(main).class(locking).finish().is_ok());
/// ```
#[derive(Clone, Debug, Default, PartialEq, Eq)]
pub struct Class {
    arguments: Vec<u8>,
    fields: Vec<u8>,
    lines: Vec<Line>,
    variables: usize,
    stack: usize,
}

/// An instruction and the row before it.
#[derive(Clone, Debug, PartialEq, Eq)]
struct Line {
    instruction: Instruction,
    variables: Vec<Kind>,
    stack: Vec<Kind>,
}

/// What is larger than a number's byte or two stands for the largest: that is beyond
/// every limit too, and what is cut off with it is not read.
const MOST: usize = 255;
const MOST_LINES: usize = 65_535;

impl Class {
    /// Without arguments, fields and code.
    pub fn new() -> Class {
        Class::default()
    }

    /// With one argument more, which its thread finds in the next variable.
    pub fn argument(mut self, descriptor: Descriptor) -> Class {
        self.arguments.push(descriptor.byte());
        self
    }

    /// With one field more.
    pub fn field(mut self, descriptor: Descriptor) -> Class {
        self.fields.push(descriptor.byte());
        self
    }

    /// With room for so many variables and stack places at least.
    pub fn room(mut self, variables: u8, stack: u8) -> Class {
        self.variables = self.variables.max(usize::from(variables));
        self.stack = self.stack.max(usize::from(stack));
        self
    }

    /// With one instruction more, and what variables and stack hold before it; the
    /// top of the stack comes first.
    pub fn line(mut self, instruction: Instruction, variables: &[Kind], stack: &[Kind]) -> Class {
        self.variables = self.variables.max(variables.len());
        self.stack = self.stack.max(stack.len());
        self.lines.push(Line {
            instruction,
            variables: variables.to_vec(),
            stack: stack.to_vec(),
        });
        self
    }

    fn variable_count(&self) -> usize {
        self.variables.max(self.arguments.len()).min(MOST)
    }

    fn stack_limit(&self) -> usize {
        self.stack.min(MOST)
    }

    fn lines(&self) -> impl Iterator<Item = &Line> {
        self.lines.iter().take(MOST_LINES)
    }

    /// How many arguments, variables, stack places, fields and instructions.
    pub(crate) fn numbers(&self) -> [u8; 6] {
        let byte = |count: usize| count.min(MOST) as u8;
        let [high, low] = (self.lines().count() as u16).to_be_bytes();
        [
            byte(self.arguments.len()),
            byte(self.variable_count()),
            byte(self.stack_limit()),
            byte(self.fields.len()),
            high,
            low,
        ]
    }

    pub(crate) fn descriptors(&self) -> impl Iterator<Item = u8> + '_ {
        let arguments = self.arguments.iter().take(MOST);
        arguments.chain(self.fields.iter().take(MOST)).copied()
    }

    pub(crate) fn instructions(&self) -> impl Iterator<Item = u8> + '_ {
        self.lines().flat_map(|line| line.instruction.bytes())
    }

    /// Of each row its variables, its depth, and its stack from the top.
    pub(crate) fn rows(&self) -> impl Iterator<Item = (Vec<[u8; 2]>, u8, Vec<[u8; 2]>)> + '_ {
        self.lines().map(|line| {
            let entries = |kinds: &[Kind], length, absent| {
                let mut entries: Vec<[u8; 2]> = kinds.iter().map(|kind| kind.bytes()).collect();
                entries.resize(length, absent);
                entries
            };
            let variables = entries(&line.variables, self.variable_count(), Kind::Top.bytes());
            let stack = entries(&line.stack, self.stack_limit(), [0, 0]);
            (variables, line.stack.len().min(MOST) as u8, stack)
        })
    }
}

impl Descriptor {
    /// 255 is an integer's; a class of that number is none of any bundle, and neither
    /// is 254.
    fn byte(self) -> u8 {
        match self {
            Descriptor::Int => 255,
            Descriptor::Class(class) => class.min(254),
        }
    }
}

impl Kind {
    fn bytes(self) -> [u8; 2] {
        match self {
            Kind::Int => [1, 0],
            Kind::Top => [2, 0],
            Kind::Reference(class) => [3, class],
            Kind::Nullable(class) => [4, class],
        }
    }
}
