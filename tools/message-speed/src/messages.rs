//! Messages to read and to write, valid and damaged, always the same ones.

use crate::answers::{Asked, LENGTH};
use crate::by_zlib;

/// Numbers that look like chance (xorshift), always the same ones.
pub struct Chance(u64);

impl Chance {
    pub fn new() -> Self {
        Self(0x9E37_79B9_7F4A_7C15)
    }

    pub fn below(&mut self, limit: u64) -> u64 {
        self.0 ^= self.0 << 13;
        self.0 ^= self.0 >> 7;
        self.0 ^= self.0 << 17;
        (self.0 >> 11) % limit
    }
}

/// A message that there can be.
pub fn possible(chance: &mut Chance) -> Asked {
    let kind = 1 + chance.below(2);
    let foremost = kind - 1;
    Asked {
        kind,
        train: foremost + chance.below(64 - foremost),
        place: chance.below(1_000_000_001),
    }
}

/// A message that may be out of its limits in one or more places.
pub fn any(chance: &mut Chance) -> Asked {
    let usual = possible(chance);
    let limits = [
        0,
        1,
        2,
        3,
        63,
        64,
        255,
        256,
        257,
        1_000_000_000,
        1_000_000_001,
        1 << 32,
        (1 << 32) + 1,
        u64::MAX,
    ];
    let mut number = |usual| match chance.below(4) {
        0 => limits[chance.below(limits.len() as u64) as usize],
        _ => usual,
    };
    Asked {
        kind: number(usual.kind),
        train: number(usual.train),
        place: number(usual.place),
    }
}

/// The bytes that a message has, whether or not there can be such a message; what does not fit is cut off.
pub fn bytes_of(asked: Asked) -> [u8; LENGTH] {
    let [p0, p1, p2, p3] = (asked.place as u32).to_le_bytes();
    let mut bytes = [
        asked.kind as u8,
        asked.train as u8,
        0,
        0,
        p0,
        p1,
        p2,
        p3,
        0,
        0,
        0,
        0,
    ];
    by_zlib::put_check(&mut bytes);
    bytes
}

/// Changes a bit or a byte; at times the check is then made right again, so that what stands in the bytes is looked at.
pub fn damage(bytes: &mut [u8; LENGTH], chance: &mut Chance) {
    let at = chance.below(LENGTH as u64) as usize;
    match chance.below(2) {
        0 => bytes[at] ^= 1 << chance.below(8),
        _ => bytes[at] = chance.below(256) as u8,
    }
    if chance.below(2) == 0 {
        by_zlib::put_check(bytes);
    }
}
