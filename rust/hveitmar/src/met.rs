//! What a step meets.

/// The instruction that a step of a thread meets, and the object.
///
/// ```
/// # let folder = concat!(env!("CARGO_MANIFEST_DIR"), "/../../cases/");
/// let bundle = std::fs::read(format!("{folder}a.bundle"))?;
/// // Two steps on, thread 0 of case A is about to take the lock of object 1.
/// let met = hveitmar::meets(&bundle, &[0, 0], 0).expect("thread 0 lives");
/// assert_eq!((met.opcode, met.operand, met.address), (7, 0, 0));
/// assert_eq!(met.object, Some(1));
/// # Ok::<(), std::io::Error>(())
/// ```
#[derive(Clone, Copy, Debug, PartialEq, Eq)]
pub struct Met {
    /// The instruction's number, 1 to 14.
    pub opcode: u8,
    /// Its operand.
    pub operand: u8,
    /// Its address field: a target or a handler; 0 is none.
    pub address: u16,
    /// The object whose lock monitorenter takes or monitorexit gives back, 0
    /// to 31. No other instruction meets one, and these meet none where the
    /// variable is null or an integer.
    pub object: Option<u8>,
}

impl Met {
    /// Reads the C call's number, all of it: None is that of a thread that does
    /// not live, and what is no answer of the law is none here.
    pub(crate) fn unpacked(packed: u64) -> Option<Option<Met>> {
        let [opcode, operand, low, high, object, 0, 0, 0] = packed.to_le_bytes() else {
            return None;
        };
        let address = u16::from_le_bytes([low, high]);
        let object = match (opcode, object) {
            (0, 0) if packed == 0 => return Some(None),
            (1..=14, 0) => None,
            (7 | 8, 1..=32) => Some(object - 1),
            _ => return None,
        };
        Some(Some(Met {
            opcode,
            operand,
            address,
            object,
        }))
    }
}

#[cfg(test)]
mod tests {
    use super::*;

    #[test]
    fn numbers_are_read_as_they_are_written() {
        let met = |opcode, operand, address, object| Met {
            opcode,
            operand,
            address,
            object,
        };
        let told = [
            (0, None),
            (12, Some(met(12, 0, 0, None))),
            (6 | 256 << 16, Some(met(6, 0, 256, None))),
            (7 | 15 << 8 | 3 << 16, Some(met(7, 15, 3, None))),
            (7 | 1 << 32, Some(met(7, 0, 0, Some(0)))),
            (8 | 2 << 8 | 32 << 32, Some(met(8, 2, 0, Some(31)))),
        ];
        for (packed, met) in told {
            assert_eq!(Met::unpacked(packed), Some(met), "{packed:x}");
        }
    }

    #[test]
    fn other_numbers_are_no_answer() {
        let stray = [
            15,
            1 << 8,
            1 << 16,
            1 << 32,
            7 | 33 << 32,
            7 | 1 << 40,
            10 | 1 << 32,
            u64::MAX,
        ];
        assert!(stray.iter().all(|&packed| Met::unpacked(packed).is_none()));
    }
}
