//! A method's code as linked instructions: what follows each, where it jumps, and which handlers cover it.

use crate::{Catch, Method, Obstacle};

/// One instruction. Loads and stores have their short forms spelled out (`aload_1` is `aload` with operand 1), and `wide` is gone.
#[derive(Clone, Debug)]
pub struct Instruction {
    /// The offset in the code; copies of a subroutine's code stand 65,536 apart.
    pub at: u32,
    pub op: u8,
    /// A variable, an index of the constant pool, or the dimensions of `multianewarray`.
    pub operand: u16,
    pub next: Option<usize>,
    pub targets: Vec<usize>,
    /// In the table's order.
    pub handlers: Vec<(usize, Catch)>,
    pub line: u16,
}

impl Instruction {
    /// The offset in the class file's code.
    pub fn offset(&self) -> u32 {
        self.at % 65_536
    }

    pub fn returns(&self) -> bool {
        (op::IRETURN..=op::RETURN).contains(&self.op)
    }

    /// What may come after it when it does not throw, each once.
    pub fn successors(&self) -> Vec<usize> {
        let mut out = Vec::with_capacity(1 + self.targets.len());
        for &to in self.next.iter().chain(&self.targets) {
            if !out.contains(&to) {
                out.push(to);
            }
        }
        out
    }
}

/// The opcodes that a skeleton asks for by name.
pub mod op {
    pub const ICONST_0: u8 = 3;
    pub const LDC: u8 = 18;
    pub const LDC_W: u8 = 19;
    pub const ILOAD: u8 = 21;
    pub const ALOAD: u8 = 25;
    pub const ISTORE: u8 = 54;
    pub const ASTORE: u8 = 58;
    pub const DUP: u8 = 89;
    pub const SWAP: u8 = 95;
    pub const IINC: u8 = 132;
    pub const IFEQ: u8 = 153;
    pub const GOTO: u8 = 167;
    pub const JSR: u8 = 168;
    pub const RET: u8 = 169;
    pub const TABLESWITCH: u8 = 170;
    pub const LOOKUPSWITCH: u8 = 171;
    pub const IRETURN: u8 = 172;
    pub const RETURN: u8 = 177;
    pub const GETSTATIC: u8 = 178;
    pub const PUTSTATIC: u8 = 179;
    pub const GETFIELD: u8 = 180;
    pub const PUTFIELD: u8 = 181;
    pub const INVOKEVIRTUAL: u8 = 182;
    pub const INVOKESPECIAL: u8 = 183;
    pub const INVOKESTATIC: u8 = 184;
    pub const INVOKEINTERFACE: u8 = 185;
    pub const INVOKEDYNAMIC: u8 = 186;
    pub const NEW: u8 = 187;
    pub const NEWARRAY: u8 = 188;
    pub const ANEWARRAY: u8 = 189;
    pub const ARRAYLENGTH: u8 = 190;
    pub const ATHROW: u8 = 191;
    pub const CHECKCAST: u8 = 192;
    pub const INSTANCEOF: u8 = 193;
    pub const MONITORENTER: u8 = 194;
    pub const MONITOREXIT: u8 = 195;
    pub const WIDE: u8 = 196;
    pub const MULTIANEWARRAY: u8 = 197;
    pub const IFNULL: u8 = 198;
    pub const IFNONNULL: u8 = 199;
    pub const GOTO_W: u8 = 200;
    pub const JSR_W: u8 = 201;
}

/// Big-endian numbers of the code; past its end there is none.
fn u2(code: &[u8], at: usize) -> Option<u16> {
    Some(u16::from_be_bytes([*code.get(at)?, *code.get(at + 1)?]))
}

fn s4(code: &[u8], at: usize) -> Option<i32> {
    let four = code.get(at..at.checked_add(4)?)?;
    Some(i32::from_be_bytes([four[0], four[1], four[2], four[3]]))
}

/// Where a switch's numbers begin: the next multiple of four.
fn switch_base(at: usize) -> usize {
    at + 4 - at % 4
}

/// How many arms a switch has besides its default.
fn arms(code: &[u8], at: usize) -> Option<usize> {
    let base = switch_base(at);
    let count = match code[at] {
        op::TABLESWITCH => i64::from(s4(code, base + 8)?) - i64::from(s4(code, base + 4)?) + 1,
        _ => i64::from(s4(code, base + 4)?),
    };
    usize::try_from(count).ok().filter(|&n| n <= code.len())
}

fn size(code: &[u8], at: usize) -> Option<usize> {
    Some(match code[at] {
        op::WIDE if *code.get(at + 1)? == op::IINC => 6,
        op::WIDE => 4,
        op::TABLESWITCH => switch_base(at) + 12 + 4 * arms(code, at)? - at,
        op::LOOKUPSWITCH => switch_base(at) + 8 + 8 * arms(code, at)? - at,
        16 | op::LDC | op::RET | op::NEWARRAY | 21..=25 | 54..=58 => 2,
        17
        | op::LDC_W
        | 20
        | op::IINC
        | op::NEW
        | op::ANEWARRAY
        | op::CHECKCAST
        | op::INSTANCEOF => 3,
        153..=168 | 178..=184 | op::IFNULL | op::IFNONNULL => 3,
        op::MULTIANEWARRAY => 4,
        op::INVOKEINTERFACE | op::INVOKEDYNAMIC | op::GOTO_W | op::JSR_W => 5,
        _ => 1,
    })
}

fn read(code: &[u8], at: usize) -> Option<Instruction> {
    let first = code[at];
    let byte = || code.get(at + 1).map(|&b| u16::from(b));
    let (op, operand) = match first {
        op::WIDE => (*code.get(at + 1)?, u2(code, at + 2)?),
        op::LDC | 21..=25 | 54..=58 | op::IINC | op::RET => (first, byte()?),
        op::LDC_W | 20 | 178..=187 | op::ANEWARRAY | op::CHECKCAST | op::INSTANCEOF => {
            (first, u2(code, at + 1)?)
        }
        op::MULTIANEWARRAY => (first, u16::from(*code.get(at + 3)?)),
        26..=45 => (op::ILOAD + (first - 26) / 4, u16::from((first - 26) % 4)),
        59..=78 => (op::ISTORE + (first - 59) / 4, u16::from((first - 59) % 4)),
        _ => (first, 0),
    };
    Some(Instruction {
        at: at as u32,
        op,
        operand,
        next: None,
        targets: Vec::new(),
        handlers: Vec::new(),
        line: 0,
    })
}

/// The offsets that the instruction at `at` jumps to.
fn jumps(code: &[u8], at: usize) -> Option<Vec<i64>> {
    let from = at as i64;
    let far = |place: usize| s4(code, place).map(|d| from + i64::from(d));
    match code[at] {
        153..=168 | op::IFNULL | op::IFNONNULL => {
            Some(vec![from + i64::from(u2(code, at + 1)? as i16)])
        }
        op::GOTO_W | op::JSR_W => Some(vec![far(at + 1)?]),
        op::TABLESWITCH => {
            let base = switch_base(at);
            let rest = (0..arms(code, at)?).map(|k| far(base + 12 + 4 * k));
            std::iter::once(far(base)).chain(rest).collect()
        }
        op::LOOKUPSWITCH => {
            let base = switch_base(at);
            let rest = (0..arms(code, at)?).map(|k| far(base + 12 + 8 * k));
            std::iter::once(far(base)).chain(rest).collect()
        }
        _ => Some(Vec::new()),
    }
}

/// Whether nothing follows it in the code.
fn is_last_of_its_way(code: &[u8], at: usize) -> bool {
    let op = if code[at] == op::WIDE {
        code.get(at + 1).copied().unwrap_or(0)
    } else {
        code[at]
    };
    matches!(
        op,
        op::GOTO | op::RET..=op::RETURN | op::ATHROW | op::GOTO_W
    )
}

/// The method's instructions, linked. Subroutines (`jsr`, `ret`) are copied out for each chain of callers.
pub fn decoded(method: &Method) -> Result<Vec<Instruction>, Obstacle> {
    let code = method.code;
    let mut all = Vec::new();
    let mut places = vec![usize::MAX; code.len()];
    let mut at = 0;
    while at < code.len() {
        let cut = || Obstacle::new(at as u32, "an instruction is cut short");
        places[at] = all.len();
        all.push(read(code, at).ok_or_else(cut)?);
        at += size(code, at).ok_or_else(cut)?;
    }
    if at != code.len() || all.is_empty() {
        return Err(Obstacle::new(
            all.last().map_or(0, |i: &Instruction| i.at),
            "the last instruction is cut short",
        ));
    }
    let place = |offset: i64, from: u32| {
        usize::try_from(offset)
            .ok()
            .and_then(|o| places.get(o).copied())
            .filter(|&p| p != usize::MAX)
            .ok_or_else(|| {
                Obstacle::new(
                    from,
                    "a jump into the middle of an instruction or past the code",
                )
            })
    };
    for k in 0..all.len() {
        let from = all[k].at;
        let offset = from as usize;
        let far = jumps(code, offset).ok_or_else(|| Obstacle::new(from, "a jump is cut short"))?;
        all[k].targets = far
            .into_iter()
            .map(|t| place(t, from))
            .collect::<Result<_, _>>()?;
        if !is_last_of_its_way(code, offset) {
            if k + 1 == all.len() {
                return Err(Obstacle::new(from, "the code goes on past its end"));
            }
            all[k].next = Some(k + 1);
        }
    }
    for range in method.handlers {
        let to = place(i64::from(range.handler), u32::from(range.handler))?;
        for i in all
            .iter_mut()
            .filter(|i| (u32::from(range.start)..u32::from(range.end)).contains(&i.at))
        {
            i.handlers.push((to, range.catch));
        }
    }
    number_lines(&mut all, method.lines);
    if all
        .iter()
        .any(|i| matches!(i.op, op::JSR | op::RET | op::JSR_W))
    {
        return crate::subroutine::copied_out(&all);
    }
    Ok(all)
}

/// Each instruction gets the line of the last entry at or before it.
fn number_lines(all: &mut [Instruction], lines: &[(u16, u16)]) {
    let mut sorted = lines.to_vec();
    sorted.sort_by_key(|&(from, _)| from);
    let (mut next, mut line) = (0, 0);
    for i in all {
        while next < sorted.len() && u32::from(sorted[next].0) <= i.at {
            line = sorted[next].1;
            next += 1;
        }
        i.line = line;
    }
}

#[cfg(test)]
mod tests {
    use super::*;
    use crate::tests::method;

    #[test]
    fn short_forms_are_spelled_out() {
        let all = decoded(&method(&[0x2b, 0x4c, 0xc4, 0x19, 1, 2, 0xb1])).unwrap();
        let seen: Vec<_> = all.iter().map(|i| (i.at, i.op, i.operand)).collect();
        assert_eq!(
            seen,
            [
                (0, op::ALOAD, 1),
                (1, op::ASTORE, 1),
                (2, op::ALOAD, 258),
                (6, op::RETURN, 0)
            ]
        );
    }

    #[test]
    fn a_branch_has_two_ways() {
        let all = decoded(&method(&[0x03, 0x99, 0, 4, 0xb1, 0xb1])).unwrap();
        assert_eq!(all[1].successors(), [2, 3]);
        assert_eq!(all[2].next, None);
    }

    #[test]
    fn a_table_switch_has_its_arms() {
        // iconst_0; tableswitch 0..1, default 24, arms 25 and 24; two returns
        let mut code = vec![0x03, 0xaa, 0, 0];
        for n in [23u32, 0, 1, 24, 23] {
            code.extend(n.to_be_bytes());
        }
        code.extend([0xb1, 0xb1]);
        let all = decoded(&method(&code)).unwrap();
        assert_eq!(all[1].targets, [2, 3, 2]);
        assert_eq!(all[1].next, None);
    }

    #[test]
    fn damaged_code_is_an_obstacle() {
        for code in [
            &[0xb6u8, 0][..],
            &[0xaa],
            &[0xab, 0, 0, 0],
            &[0xa7, 0, 9],
            &[0xa7, 0x80, 0],
            &[0x03],
            &[0xc4],
            &[],
        ] {
            assert!(decoded(&method(code)).is_err(), "{code:?}");
        }
    }
}
