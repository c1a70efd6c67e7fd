//! Bytes read one after the other.

use crate::damage::Damage;

/// What is left to read, and its offset in the file.
#[derive(Clone, Copy, Debug)]
pub(crate) struct Reader<'a> {
    rest: &'a [u8],
    at: usize,
    /// What the bytes are of, for those who run out of them.
    of: &'static str,
}

impl<'a> Reader<'a> {
    pub fn new(bytes: &'a [u8]) -> Reader<'a> {
        Reader {
            rest: bytes,
            at: 0,
            of: "file",
        }
    }

    /// The offset of the next byte.
    pub fn at(&self) -> usize {
        self.at
    }

    pub fn rest(&self) -> &'a [u8] {
        self.rest
    }

    pub fn bytes(&mut self, count: usize) -> Result<&'a [u8], Damage> {
        let Some((bytes, rest)) = self.rest.split_at_checked(count) else {
            return Err(Damage::new(self.at, format!("the {} ends", self.of)));
        };
        self.rest = rest;
        self.at += count;
        Ok(bytes)
    }

    fn array<const N: usize>(&mut self) -> Result<[u8; N], Damage> {
        let mut array = [0; N];
        array.copy_from_slice(self.bytes(N)?);
        Ok(array)
    }

    pub fn u1(&mut self) -> Result<u8, Damage> {
        Ok(u8::from_be_bytes(self.array()?))
    }

    pub fn u2(&mut self) -> Result<u16, Damage> {
        Ok(u16::from_be_bytes(self.array()?))
    }

    pub fn u4(&mut self) -> Result<u32, Damage> {
        Ok(u32::from_be_bytes(self.array()?))
    }

    pub fn u8(&mut self) -> Result<u64, Damage> {
        Ok(u64::from_be_bytes(self.array()?))
    }

    /// A length in four bytes.
    pub fn length(&mut self) -> Result<usize, Damage> {
        let at = self.at;
        let length = usize::try_from(self.u4()?);
        length.map_err(|_| Damage::new(at, "the length is out of reach"))
    }

    /// The next so many bytes by themselves.
    pub fn part(&mut self, count: usize, of: &'static str) -> Result<Reader<'a>, Damage> {
        let at = self.at;
        let rest = self.bytes(count)?;
        Ok(Reader { rest, at, of })
    }

    /// Nothing may be left.
    pub fn end(&self) -> Result<(), Damage> {
        match self.rest.len() {
            0 => Ok(()),
            left => Err(Damage::new(
                self.at,
                format!("{left} bytes are left behind the {}'s end", self.of),
            )),
        }
    }
}
