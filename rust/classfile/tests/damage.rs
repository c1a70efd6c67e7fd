//! Damaged files: each is read or refused with an offset inside it, and none
//! makes the reader panic.

mod common;

use classfile::{instructions, ClassFile};
use common::{case, every_constant};

/// Splitmix64: the same numbers every time.
struct Numbers(u64);

impl Numbers {
    fn next(&mut self) -> u64 {
        self.0 = self.0.wrapping_add(0x9E37_79B9_7F4A_7C15);
        let z = (self.0 ^ (self.0 >> 30)).wrapping_mul(0xBF58_476D_1CE4_E5B9);
        let z = (z ^ (z >> 27)).wrapping_mul(0x94D0_49BB_1331_11EB);
        z ^ (z >> 31)
    }

    fn below(&mut self, n: usize) -> usize {
        (self.next() % n as u64) as usize
    }
}

fn files() -> Vec<Vec<u8>> {
    vec![
        case("Counts"),
        case("Locks"),
        case("Things"),
        every_constant(52),
    ]
}

/// Reads all that there is to read; whether the file is refused.
fn try_to_read(bytes: &[u8]) -> bool {
    match ClassFile::read(bytes) {
        Ok(class) => {
            for code in class.methods.iter().filter_map(|m| m.code.as_ref()) {
                let within = |at| at < code.bytes.len();
                assert!(instructions(code.bytes).all(|i| within(i.at)));
                assert!(code.line(usize::MAX).is_some() || code.lines.is_empty());
            }
            for method in &class.methods {
                let _ = method.method_descriptor();
            }
            for index in 0..100 {
                let _ = (class.constants.member(index), class.constants.class(index));
            }
            false
        }
        Err(damage) => {
            assert!(damage.at <= bytes.len(), "{damage} of {}", bytes.len());
            assert_eq!(damage.to_string().lines().count(), 1);
            true
        }
    }
}

#[test]
fn files_that_are_cut_short_or_too_long() {
    for file in files() {
        assert!(!try_to_read(&file));
        for length in 0..file.len() {
            assert!(try_to_read(&file[..length]), "{length}");
        }
        assert!(try_to_read(&[&file[..], &[0]].concat()));
    }
}

#[test]
fn every_byte_changed() {
    for file in files() {
        for at in 0..file.len() {
            for byte in [
                0,
                1,
                0x7F,
                0x80,
                0xFF,
                file[at] ^ 1,
                file[at].wrapping_add(1),
            ] {
                let mut changed = file.clone();
                changed[at] = byte;
                try_to_read(&changed);
            }
        }
    }
}

#[test]
fn several_bytes_changed() {
    let files = files();
    let mut numbers = Numbers(7);
    let mut refused = 0;
    for _ in 0..20_000 {
        let mut file = files[numbers.below(files.len())].clone();
        for _ in 0..=numbers.below(6) {
            let at = numbers.below(file.len());
            match numbers.below(4) {
                0 => drop(file.remove(at)),
                1 => file.insert(at, numbers.next() as u8),
                _ => file[at] = numbers.next() as u8,
            }
        }
        refused += usize::from(try_to_read(&file));
    }
    assert!((10_000..20_000).contains(&refused), "{refused}");
}

#[test]
fn what_is_wrong_is_told_with_its_offset() {
    let file = every_constant(52);
    let told = |at: usize, byte: u8| {
        let mut changed = file.clone();
        changed[at] = byte;
        let damage = ClassFile::read(&changed).expect_err("damaged");
        damage.to_string()
    };
    assert_eq!(
        told(0, 0),
        "damaged at 0: it does not begin as a class file"
    );
    assert_eq!(told(10, 2), "damaged at 10: 2 is no constant's tag");
    // The first constant has one byte, and says 255.
    assert_eq!(told(11, 0xFF), "damaged at 13: the file ends");
    let behind = file.len() - 2 - 10 - 10 - 10;
    assert_eq!(
        told(behind + 3, 1),
        format!("damaged at {}: constant 1 is no class", behind + 2)
    );
    assert_eq!(
        told(behind + 15, 2),
        format!("damaged at {}: constant 2 is no name", behind + 14)
    );
    let longer = [&file[..], &[0, 0]].concat();
    let damage = ClassFile::read(&longer).expect_err("too long").to_string();
    let wanted = format!(
        "damaged at {}: 2 bytes are left behind the file's end",
        file.len()
    );
    assert_eq!(damage, wanted);
}
