//! What is told of one step.

use hveitmar::Answer;
use listing::{Instruction, Opcode, Program};
use reference::state::{State, Thread, Value, OBJECTS, OBJECT_0};
use trace::Turn;

/// What each column of the table holds.
pub const COLUMNS: [&str; 8] = [
    "step",
    "thread",
    "class",
    "address",
    "instruction",
    "object",
    "holds",
    "answer",
];

/// What a column says where there is nothing to say.
fn none() -> String {
    "-".to_string()
}

/// A step, the state that it was taken from, the answer, and how many objects
/// the thread holds then, if it lives.
pub struct Step<'a> {
    pub program: &'a Program<'a>,
    pub state: &'a State,
    pub turn: Turn,
    pub answer: Answer,
    pub holds: Option<u8>,
}

impl Step<'_> {
    /// The words of its line.
    pub fn told(&self, number: usize) -> Vec<String> {
        let fails = if self.turn.fails() { "!" } else { "" };
        let thread = format!("{}{fails}", self.turn.thread());
        let answer = format!("{} {}", self.answer.number(), self.answer);
        let holds = self.holds.map_or_else(none, |number| number.to_string());
        let [class, address, instruction, object] = self.place();
        let told = [
            number.to_string(),
            thread,
            class,
            address,
            instruction,
            object,
            holds,
            answer,
        ];
        told.to_vec()
    }

    /// Where the thread stands, its instruction and its object; dashes where
    /// there is none.
    fn place(&self) -> [String; 4] {
        let thread = self.state.threads.get(usize::from(self.turn.thread()));
        let Some(thread) = thread.filter(|thread| thread.live) else {
            return [none(), none(), none(), none()];
        };
        let method = self.program.method(thread.class);
        let instruction = method.instruction(thread.address);
        let object = instruction.and_then(|instruction| self.object(thread, instruction));
        [
            thread.class.to_string(),
            thread.address.to_string(),
            instruction.map_or_else(none, |instruction| instruction.to_string()),
            object.unwrap_or_else(none),
        ]
    }

    /// The object that the instruction works on, or null, if there is one.
    fn object(&self, thread: &Thread, instruction: Instruction) -> Option<String> {
        let operand = instruction.operand;
        let below = |entries: usize| {
            let place = usize::from(thread.depth).checked_sub(entries + 1)?;
            thread.stack.get(place)
        };
        let value = match instruction.form.opcode {
            Opcode::Load | Opcode::Enter | Opcode::Exit => {
                thread.variables.get(usize::from(operand))
            }
            Opcode::Pop | Opcode::Store | Opcode::Throw | Opcode::Getfield => below(0),
            Opcode::Putfield => below(1),
            Opcode::Start => below(self.program.method(operand).head.arguments),
            Opcode::New => return self.allocated().map(|object| object.to_string()),
            Opcode::Inc | Opcode::Push0 | Opcode::If | Opcode::Return => None,
        };
        match value {
            Some(Value::Ref(object)) => Some(object.to_string()),
            Some(Value::Null) => Some("null".to_string()),
            Some(Value::Int(_)) | None => None,
        }
    }

    /// The object that new makes, or throws where it fails; none where it is
    /// refused.
    fn allocated(&self) -> Option<u8> {
        let fails = self.turn.fails() || usize::from(self.state.objects) >= OBJECTS;
        match self.answer {
            Answer::WentOn if !fails => Some(self.state.objects),
            Answer::WentOn | Answer::Uncaught => Some(OBJECT_0),
            _ => None,
        }
    }
}
