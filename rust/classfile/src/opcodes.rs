//! The instructions of the Java Virtual Machine (chapter 6): names and sizes.

use Operands::{LookupSwitch, Of, TableSwitch, Wide};

/// One instruction as it stands in the code.
#[derive(Clone, Copy, Debug, PartialEq, Eq)]
pub struct Instruction<'a> {
    /// The offset of its opcode.
    pub at: usize,
    /// Its opcode.
    pub opcode: u8,
    /// All its bytes.
    pub bytes: &'a [u8],
}

impl Instruction<'_> {
    /// Its operand of two bytes from this place on, as most that have an index
    /// or a distance have one at 1.
    pub fn operand(&self, at: usize) -> Option<u16> {
        let (operand, _) = self.bytes.get(at..)?.split_first_chunk()?;
        Some(u16::from_be_bytes(*operand))
    }
}

/// The instructions of a method's code, one after the other; they end early
/// before one that is cut off or that has no name.
///
/// ```
/// let sizes = classfile::instructions(&[0x15, 4, 0x57, 0xBB, 0]).map(|i| (i.at, i.bytes.len()));
/// assert_eq!(sizes.collect::<Vec<_>>(), [(0, 2), (2, 1)]);
/// ```
pub fn instructions(code: &[u8]) -> impl Iterator<Item = Instruction<'_>> {
    let mut at = 0;
    std::iter::from_fn(move || {
        let rest = code.get(at..)?;
        let bytes = rest.get(..size(rest, at)?)?;
        let instruction = Instruction {
            at,
            opcode: *bytes.first()?,
            bytes,
        };
        at += bytes.len();
        Some(instruction)
    })
}

/// The name of an opcode, if it has one in class files.
///
/// ```
/// assert_eq!(classfile::opcode_name(0xB6), Some("invokevirtual"));
/// assert_eq!(classfile::opcode_name(0xCA), None);
/// ```
pub fn opcode_name(opcode: u8) -> Option<&'static str> {
    let (name, _) = OPCODES.get(usize::from(opcode))?;
    Some(name)
}

/// How many bytes the instruction at the beginning of these has, at this
/// offset of the code.
fn size(bytes: &[u8], at: usize) -> Option<usize> {
    let (_, operands) = OPCODES.get(usize::from(*bytes.first()?))?;
    match operands {
        Of(count) => Some(1 + count),
        Wide => match bytes.get(1)? {
            0x84 => Some(6),
            _ => Some(4),
        },
        TableSwitch => {
            let begin = 1 + padding(at);
            let (low, high) = (signed(bytes, begin + 4)?, signed(bytes, begin + 8)?);
            let count = usize::try_from(high.checked_sub(low)?.checked_add(1)?).ok()?;
            count.checked_mul(4)?.checked_add(begin + 12)
        }
        LookupSwitch => {
            let begin = 1 + padding(at);
            let count = usize::try_from(signed(bytes, begin + 4)?).ok()?;
            count.checked_mul(8)?.checked_add(begin + 8)
        }
    }
}

/// A switch's numbers begin at a multiple of four.
fn padding(at: usize) -> usize {
    3 - at % 4
}

fn signed(bytes: &[u8], at: usize) -> Option<i64> {
    let (number, _) = bytes.get(at..)?.split_first_chunk()?;
    Some(i64::from(i32::from_be_bytes(*number)))
}

/// What follows an opcode.
enum Operands {
    /// So many bytes.
    Of(usize),
    TableSwitch,
    LookupSwitch,
    Wide,
}

#[rustfmt::skip]
const OPCODES: [(&str, Operands); 0xCA] = [
    ("nop", Of(0)), ("aconst_null", Of(0)), ("iconst_m1", Of(0)), ("iconst_0", Of(0)),
    ("iconst_1", Of(0)), ("iconst_2", Of(0)), ("iconst_3", Of(0)), ("iconst_4", Of(0)),
    ("iconst_5", Of(0)), ("lconst_0", Of(0)), ("lconst_1", Of(0)), ("fconst_0", Of(0)),
    ("fconst_1", Of(0)), ("fconst_2", Of(0)), ("dconst_0", Of(0)), ("dconst_1", Of(0)),
    ("bipush", Of(1)), ("sipush", Of(2)), ("ldc", Of(1)), ("ldc_w", Of(2)), ("ldc2_w", Of(2)),
    ("iload", Of(1)), ("lload", Of(1)), ("fload", Of(1)), ("dload", Of(1)), ("aload", Of(1)),
    ("iload_0", Of(0)), ("iload_1", Of(0)), ("iload_2", Of(0)), ("iload_3", Of(0)),
    ("lload_0", Of(0)), ("lload_1", Of(0)), ("lload_2", Of(0)), ("lload_3", Of(0)),
    ("fload_0", Of(0)), ("fload_1", Of(0)), ("fload_2", Of(0)), ("fload_3", Of(0)),
    ("dload_0", Of(0)), ("dload_1", Of(0)), ("dload_2", Of(0)), ("dload_3", Of(0)),
    ("aload_0", Of(0)), ("aload_1", Of(0)), ("aload_2", Of(0)), ("aload_3", Of(0)),
    ("iaload", Of(0)), ("laload", Of(0)), ("faload", Of(0)), ("daload", Of(0)),
    ("aaload", Of(0)), ("baload", Of(0)), ("caload", Of(0)), ("saload", Of(0)),
    ("istore", Of(1)), ("lstore", Of(1)), ("fstore", Of(1)), ("dstore", Of(1)),
    ("astore", Of(1)), ("istore_0", Of(0)), ("istore_1", Of(0)), ("istore_2", Of(0)),
    ("istore_3", Of(0)), ("lstore_0", Of(0)), ("lstore_1", Of(0)), ("lstore_2", Of(0)),
    ("lstore_3", Of(0)), ("fstore_0", Of(0)), ("fstore_1", Of(0)), ("fstore_2", Of(0)),
    ("fstore_3", Of(0)), ("dstore_0", Of(0)), ("dstore_1", Of(0)), ("dstore_2", Of(0)),
    ("dstore_3", Of(0)), ("astore_0", Of(0)), ("astore_1", Of(0)), ("astore_2", Of(0)),
    ("astore_3", Of(0)), ("iastore", Of(0)), ("lastore", Of(0)), ("fastore", Of(0)),
    ("dastore", Of(0)), ("aastore", Of(0)), ("bastore", Of(0)), ("castore", Of(0)),
    ("sastore", Of(0)), ("pop", Of(0)), ("pop2", Of(0)), ("dup", Of(0)), ("dup_x1", Of(0)),
    ("dup_x2", Of(0)), ("dup2", Of(0)), ("dup2_x1", Of(0)), ("dup2_x2", Of(0)), ("swap", Of(0)),
    ("iadd", Of(0)), ("ladd", Of(0)), ("fadd", Of(0)), ("dadd", Of(0)), ("isub", Of(0)),
    ("lsub", Of(0)), ("fsub", Of(0)), ("dsub", Of(0)), ("imul", Of(0)), ("lmul", Of(0)),
    ("fmul", Of(0)), ("dmul", Of(0)), ("idiv", Of(0)), ("ldiv", Of(0)), ("fdiv", Of(0)),
    ("ddiv", Of(0)), ("irem", Of(0)), ("lrem", Of(0)), ("frem", Of(0)), ("drem", Of(0)),
    ("ineg", Of(0)), ("lneg", Of(0)), ("fneg", Of(0)), ("dneg", Of(0)), ("ishl", Of(0)),
    ("lshl", Of(0)), ("ishr", Of(0)), ("lshr", Of(0)), ("iushr", Of(0)), ("lushr", Of(0)),
    ("iand", Of(0)), ("land", Of(0)), ("ior", Of(0)), ("lor", Of(0)), ("ixor", Of(0)),
    ("lxor", Of(0)), ("iinc", Of(2)), ("i2l", Of(0)), ("i2f", Of(0)), ("i2d", Of(0)),
    ("l2i", Of(0)), ("l2f", Of(0)), ("l2d", Of(0)), ("f2i", Of(0)), ("f2l", Of(0)),
    ("f2d", Of(0)), ("d2i", Of(0)), ("d2l", Of(0)), ("d2f", Of(0)), ("i2b", Of(0)),
    ("i2c", Of(0)), ("i2s", Of(0)), ("lcmp", Of(0)), ("fcmpl", Of(0)), ("fcmpg", Of(0)),
    ("dcmpl", Of(0)), ("dcmpg", Of(0)), ("ifeq", Of(2)), ("ifne", Of(2)), ("iflt", Of(2)),
    ("ifge", Of(2)), ("ifgt", Of(2)), ("ifle", Of(2)), ("if_icmpeq", Of(2)),
    ("if_icmpne", Of(2)), ("if_icmplt", Of(2)), ("if_icmpge", Of(2)), ("if_icmpgt", Of(2)),
    ("if_icmple", Of(2)), ("if_acmpeq", Of(2)), ("if_acmpne", Of(2)), ("goto", Of(2)),
    ("jsr", Of(2)), ("ret", Of(1)), ("tableswitch", TableSwitch),
    ("lookupswitch", LookupSwitch), ("ireturn", Of(0)), ("lreturn", Of(0)), ("freturn", Of(0)),
    ("dreturn", Of(0)), ("areturn", Of(0)), ("return", Of(0)), ("getstatic", Of(2)),
    ("putstatic", Of(2)), ("getfield", Of(2)), ("putfield", Of(2)), ("invokevirtual", Of(2)),
    ("invokespecial", Of(2)), ("invokestatic", Of(2)), ("invokeinterface", Of(4)),
    ("invokedynamic", Of(4)), ("new", Of(2)), ("newarray", Of(1)), ("anewarray", Of(2)),
    ("arraylength", Of(0)), ("athrow", Of(0)), ("checkcast", Of(2)), ("instanceof", Of(2)),
    ("monitorenter", Of(0)), ("monitorexit", Of(0)), ("wide", Wide), ("multianewarray", Of(3)),
    ("ifnull", Of(2)), ("ifnonnull", Of(2)), ("goto_w", Of(4)), ("jsr_w", Of(4)),
];
