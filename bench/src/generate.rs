//! Seeded random numbers, and pairs of ranges made of them.

use crate::ranges::Range;

/// xorshift64*.
pub struct Random(u64);

impl Random {
    pub fn new(seed: u64) -> Random {
        Random(seed | 1)
    }

    pub fn next(&mut self) -> u64 {
        self.0 ^= self.0 >> 12;
        self.0 ^= self.0 << 25;
        self.0 ^= self.0 >> 27;
        self.0.wrapping_mul(0x2545_f491_4f6c_dd1d)
    }

    /// A number from low to high.
    pub fn from(&mut self, low: u64, high: u64) -> u64 {
        low + (self.next() >> 11) % (high - low + 1)
    }

    pub fn one_of(&mut self, numbers: &[u64]) -> u64 {
        numbers[self.from(0, numbers.len() as u64 - 1) as usize]
    }
}

pub type Pair = (Range, Range);

const BASE: u64 = 1 << 20;

fn range(base: u64, stride: u64, count: u64, size: u64) -> Range {
    let stride = if count == 1 { 0 } else { stride };
    Range { base: base as u32, stride: stride as u16, count: count as u16, size: size as u8 }
}

/// Two columns of one array of structs: equal strides, bases near each other.
pub fn equal_strides(random: &mut Random) -> Pair {
    let stride = 8 * random.from(2, 12);
    let mut column = || {
        let base = BASE + 4 * random.from(0, 512);
        range(base, stride, random.from(2, 100), random.one_of(&[4, 8]))
    };
    (column(), column())
}

/// Two parts of an array of words: 1 to 64 words of 4 or 8 bytes without gaps.
pub fn word_arrays(random: &mut Random) -> Pair {
    let mut part = || {
        let size = random.one_of(&[4, 8]);
        range(BASE + size * random.from(0, 256), size, random.from(1, 64), size)
    };
    (part(), part())
}

/// Strides without a common divisor, about 1,000 elements each.
pub fn coprime_strides(random: &mut Random) -> Pair {
    let (one, other) = loop {
        let (one, other) = (random.from(500, 3000), random.from(500, 3000));
        if greatest_common_divisor(one, other) == 1 {
            break (one, other);
        }
    };
    let mut part = |stride| {
        let base = BASE + random.from(0, 100_000);
        range(base, stride, random.from(900, 1100), random.one_of(&[1, 2, 4, 8]))
    };
    (part(one), part(other))
}

fn greatest_common_divisor(one: u64, other: u64) -> u64 {
    if other == 0 { one } else { greatest_common_divisor(other, one % other) }
}

/// Any numbers of the widths; many are no good ranges.
pub fn any_ranges(random: &mut Random) -> Pair {
    let mut any = || {
        let count = random.one_of(&[0, 1, 2, 2, 3, 300, 65_535]);
        let stride = match random.from(0, 7) {
            0 => random.from(0, 65_535),
            _ if count == 1 => 0,
            _ => random.one_of(&[1, 3, 8, 12, 96, 4000, 65_535]),
        };
        let base = match random.from(0, 3) {
            0 => random.from(0, 4_294_967_295),
            1 => random.from(4_294_967_200, 4_294_967_295),
            _ => random.from(0, 200),
        };
        let size = random.one_of(&[1, 2, 4, 8, 1, 2, 4, 8, 0, 3, 255]);
        Range { base: base as u32, stride: stride as u16, count: count as u16, size: size as u8 }
    };
    (any(), any())
}
