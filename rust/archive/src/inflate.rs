//! The deflate format (RFC 1951), read with every bound checked.

/// Codes up to this length are found by one look into a table.
const FAST: u32 = 9;
const LONGEST: usize = 15;

struct Bits<'a> {
    from: &'a [u8],
    at: usize,
    held: u64,
    count: u32,
}

impl Bits<'_> {
    /// At least `n` bits are held afterwards where the input has them; past its end they are zeros.
    fn fill(&mut self) {
        while self.count <= 48 && self.at < self.from.len() {
            self.held |= u64::from(self.from[self.at]) << self.count;
            self.at += 1;
            self.count += 8;
        }
    }

    fn take(&mut self, n: u32) -> Option<u32> {
        self.fill();
        if self.count < n {
            return None;
        }
        let out = (self.held & ((1 << n) - 1)) as u32;
        self.held >>= n;
        self.count -= n;
        Some(out)
    }

    /// The next whole bytes, after the bits that are left of the present one.
    fn bytes(&mut self, n: usize) -> Option<&[u8]> {
        self.at -= (self.count / 8) as usize;
        (self.held, self.count) = (0, 0);
        let out = self.from.get(self.at..self.at.checked_add(n)?)?;
        self.at += n;
        Some(out)
    }
}

struct Codes {
    /// By the next bits: the symbol, and the code's length in the low four bits; 0 where the code is longer.
    fast: Vec<u16>,
    counts: [u16; LONGEST + 1],
    symbols: Vec<u16>,
}

impl Codes {
    /// The codes of the symbols' lengths, which may leave codes unused but must not ask for more than there are.
    fn of(lengths: &[u8]) -> Option<Codes> {
        let mut counts = [0u16; LONGEST + 1];
        for &n in lengths {
            counts[usize::from(n)] += 1;
        }
        counts[0] = 0;
        let (mut left, mut starts, mut codes) = (1i32, [0u16; LONGEST + 2], [0u16; LONGEST + 2]);
        for n in 1..=LONGEST {
            left = 2 * left - i32::from(counts[n]);
            if left < 0 {
                return None;
            }
            starts[n + 1] = starts[n] + counts[n];
            codes[n + 1] = (codes[n] + counts[n]) << 1;
        }
        let mut symbols = vec![0; lengths.len()];
        let mut fast = vec![0; 1 << FAST];
        for (symbol, &n) in lengths.iter().enumerate().filter(|(_, &n)| n > 0) {
            let length = usize::from(n);
            symbols[usize::from(starts[length])] = symbol as u16;
            starts[length] += 1;
            let code = codes[length];
            codes[length] += 1;
            if u32::from(n) <= FAST {
                let first = usize::from(code.reverse_bits() >> (16 - u32::from(n)));
                for place in (first..1 << FAST).step_by(1 << n) {
                    fast[place] = (symbol as u16) << 4 | u16::from(n);
                }
            }
        }
        Some(Codes {
            fast,
            counts,
            symbols,
        })
    }

    fn next(&self, bits: &mut Bits) -> Option<usize> {
        bits.fill();
        let found = self.fast[(bits.held & ((1 << FAST) - 1)) as usize];
        if found != 0 {
            bits.take(u32::from(found & 15))?;
            return Some(usize::from(found >> 4));
        }
        let (mut code, mut first, mut index) = (0u32, 0u32, 0u32);
        for n in 1..=LONGEST {
            code |= bits.take(1)?;
            let count = u32::from(self.counts[n]);
            if code < first + count {
                return self
                    .symbols
                    .get((index + code - first) as usize)
                    .map(|&s| usize::from(s));
            }
            index += count;
            first = (first + count) << 1;
            code <<= 1;
        }
        None
    }
}

const LENGTHS: [(u16, u32); 29] = [
    (3, 0),
    (4, 0),
    (5, 0),
    (6, 0),
    (7, 0),
    (8, 0),
    (9, 0),
    (10, 0),
    (11, 1),
    (13, 1),
    (15, 1),
    (17, 1),
    (19, 2),
    (23, 2),
    (27, 2),
    (31, 2),
    (35, 3),
    (43, 3),
    (51, 3),
    (59, 3),
    (67, 4),
    (83, 4),
    (99, 4),
    (115, 4),
    (131, 5),
    (163, 5),
    (195, 5),
    (227, 5),
    (258, 0),
];

const DISTANCES: [(u16, u32); 30] = [
    (1, 0),
    (2, 0),
    (3, 0),
    (4, 0),
    (5, 1),
    (7, 1),
    (9, 2),
    (13, 2),
    (17, 3),
    (25, 3),
    (33, 4),
    (49, 4),
    (65, 5),
    (97, 5),
    (129, 6),
    (193, 6),
    (257, 7),
    (385, 7),
    (513, 8),
    (769, 8),
    (1025, 9),
    (1537, 9),
    (2049, 10),
    (3073, 10),
    (4097, 11),
    (6145, 11),
    (8193, 12),
    (12289, 12),
    (16385, 13),
    (24577, 13),
];

fn fixed() -> Option<(Codes, Codes)> {
    let mut lengths = [8u8; 288];
    lengths[144..256].fill(9);
    lengths[256..280].fill(7);
    Some((Codes::of(&lengths)?, Codes::of(&[5; 30])?))
}

fn told(bits: &mut Bits) -> Option<(Codes, Codes)> {
    const ORDER: [usize; 19] = [
        16, 17, 18, 0, 8, 7, 9, 6, 10, 5, 11, 4, 12, 3, 13, 2, 14, 1, 15,
    ];
    let literals = bits.take(5)? as usize + 257;
    let distances = bits.take(5)? as usize + 1;
    let told = bits.take(4)? as usize + 4;
    let mut lengths = [0u8; 19];
    for &place in &ORDER[..told] {
        lengths[place] = bits.take(3)? as u8;
    }
    let codes = Codes::of(&lengths)?;
    let mut all: Vec<u8> = Vec::with_capacity(literals + distances);
    while all.len() < literals + distances {
        let (value, times) = match codes.next(bits)? {
            16 => (*all.last()?, 3 + bits.take(2)? as usize),
            17 => (0, 3 + bits.take(3)? as usize),
            18 => (0, 11 + bits.take(7)? as usize),
            length => (length as u8, 1),
        };
        all.resize(all.len() + times, value);
    }
    if all.len() != literals + distances {
        return None;
    }
    Some((Codes::of(&all[..literals])?, Codes::of(&all[literals..])?))
}

fn block(
    bits: &mut Bits,
    (literals, distances): (Codes, Codes),
    out: &mut Vec<u8>,
    size: usize,
) -> Option<()> {
    loop {
        match literals.next(bits)? {
            256 => return Some(()),
            symbol if symbol < 256 => {
                if out.len() == size {
                    return None;
                }
                out.push(symbol as u8);
            }
            symbol => {
                let &(base, extra) = LENGTHS.get(symbol - 257)?;
                let length = usize::from(base) + bits.take(extra)? as usize;
                let &(base, extra) = DISTANCES.get(distances.next(bits)?)?;
                let back = usize::from(base) + bits.take(extra)? as usize;
                let start = out.len().checked_sub(back)?;
                if out.len() + length > size {
                    return None;
                }
                if back >= length {
                    out.extend_from_within(start..start + length);
                } else {
                    for k in start..start + length {
                        out.push(out[k]);
                    }
                }
            }
        }
    }
}

/// The bytes that `from` packs, which must be exactly `size`.
pub fn inflate(from: &[u8], size: usize) -> Option<Vec<u8>> {
    let mut bits = Bits {
        from,
        at: 0,
        held: 0,
        count: 0,
    };
    let mut out = Vec::with_capacity(size.min(1 << 20));
    loop {
        let last = bits.take(1)? == 1;
        match bits.take(2)? {
            0 => {
                let head = bits.bytes(4)?;
                let length = u16::from_le_bytes([head[0], head[1]]);
                if length != !u16::from_le_bytes([head[2], head[3]])
                    || out.len() + usize::from(length) > size
                {
                    return None;
                }
                out.extend_from_slice(bits.bytes(usize::from(length))?);
            }
            1 => block(&mut bits, fixed()?, &mut out, size)?,
            2 => {
                let codes = told(&mut bits)?;
                block(&mut bits, codes, &mut out, size)?;
            }
            _ => return None,
        }
        if last {
            return Some(out).filter(|o| o.len() == size);
        }
    }
}

#[cfg(test)]
mod tests {
    use super::*;

    #[test]
    fn stored_fixed_and_wrong() {
        assert_eq!(
            inflate(&[1, 3, 0, 0xfc, 0xff, 1, 2, 3], 3),
            Some(vec![1, 2, 3])
        );
        // zlib's raw deflate of "a" and of 20 times "a"
        assert_eq!(inflate(&[0x4b, 0x04, 0x00], 1), Some(b"a".to_vec()));
        let twenty = [0x4b, 0x4c, 0xc4, 0x04, 0x00];
        assert_eq!(inflate(&twenty, 20), Some(vec![b'a'; 20]));
        assert_eq!(inflate(&twenty, 19), None);
        assert_eq!(inflate(&[1, 3, 0, 0xfc, 0xfe, 1, 2, 3], 3), None);
        assert_eq!(inflate(&[7], 0), None);
        assert_eq!(inflate(&[], 0), None);
    }

    #[test]
    fn codes_that_the_block_tells() {
        // zlib's raw deflate of the 300 bytes below
        let packed = [
            0x4d, 0x8f, 0x01, 0x0e, 0xc0, 0x30, 0x08, 0x02, 0xdf, 0x2a, 0xfc, 0xff, 0x0f, 0x83,
            0x63, 0x4b, 0xd6, 0xa6, 0xb5, 0x15, 0x45, 0xb0, 0x4e, 0xf2, 0x65, 0xf5, 0x36, 0x2f,
            0xeb, 0x0b, 0x59, 0xb9, 0xa4, 0x21, 0x49, 0x37, 0x14, 0x4e, 0x57, 0xd2, 0x01, 0x80,
            0xa4, 0xa5, 0xf2, 0x7f, 0x63, 0x1e, 0x74, 0xb4, 0x45, 0x07, 0x9b, 0x21, 0xf2, 0x0f,
            0x76, 0x19, 0x53, 0x02, 0x6f, 0x21, 0xbe, 0xf0, 0x1b, 0xfe, 0x29, 0x11, 0x25, 0x3a,
            0x52, 0x13, 0xc5, 0xd0, 0x0d, 0x60, 0x26, 0x68, 0xb5, 0xc0, 0x6f, 0xca, 0x39, 0x38,
            0xf1, 0xfa, 0x11, 0x82, 0x43, 0xaa, 0xf1, 0xa6, 0xd2, 0x31, 0xc7, 0x7a, 0x09, 0xe6,
            0xb9, 0x9c, 0x9a, 0xdd, 0x49, 0xc9, 0x7e, 0x00,
        ];
        let mut x = 1u64;
        let mut letter = || {
            x = (x * 1_103_515_245 + 12_345) % (1 << 31);
            b"abc"[(x >> 16) as usize % 3]
        };
        let bytes: Vec<u8> = (0..300).map(|_| letter()).collect();
        assert_eq!(inflate(&packed, 300), Some(bytes));
    }

    #[test]
    fn damaged_bytes_never_panic() {
        let mut seed = 7u64;
        for _ in 0..20_000 {
            let mut bytes = [0u8; 24];
            for b in &mut bytes {
                seed = seed
                    .wrapping_mul(6_364_136_223_846_793_005)
                    .wrapping_add(1_442_695_040_888_963_407);
                *b = (seed >> 56) as u8;
            }
            bytes[0] = bytes[0] & !7 | [3, 5, 4, 2][(seed >> 40) as usize % 4];
            let _ = inflate(&bytes, 64);
        }
    }
}
