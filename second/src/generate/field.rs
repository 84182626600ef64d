//! Single fields: octets, times, numbers, types and values.

use super::random::Random;
use super::text;
use crate::basic::{Basic, BASICS};
use crate::meaning::Value;
use crate::time::{new_year, LAST};

/// What a hexBinary may be, which is anything.
pub fn octets(random: &mut Random) -> Vec<u8> {
    const ODD: &[u8] = &[0, 0x0a, 0x1f, 0x20, 0x21, b'%', b'=', b'0', 0x7e, 0x7f, 0x80, 0xc3, 0xfe, 0xff];
    match random.below(10) {
        0 | 1 => vec![],
        2..=5 => (0..random.between(1, 8)).map(|_| random.between(0x61, 0x7a) as u8).collect(),
        6..=7 => (0..random.between(1, 6)).map(|_| random.pick(ODD)).collect(),
        8 => {
            let size = random.between(1, 40);
            random.octets(size)
        }
        _ if random.one_in(8) => {
            let size = random.pick(&[255, 256, 257, 600]);
            random.octets(size)
        }
        _ => vec![random.draw() as u8],
    }
}

/// A time in milliseconds, often where its text changes much from one to the next.
pub fn time(random: &mut Random) -> i64 {
    const SECOND: i64 = 1_000;
    const MINUTE: i64 = 60 * SECOND;
    const HOUR: i64 = 60 * MINUTE;
    const DAY: i64 = 24 * HOUR;
    match random.below(9) {
        0 => random.pick(&[0, 1, -1, 999, 1000, LAST, LAST + 1, LAST - 1, i64::MIN, i64::MAX]),
        1 => random.draw() as i64,
        2 => near_a_march(random) * DAY + random.pick(&[-DAY, 0, DAY]) + random.pick(&[-1, 0, 1]),
        3 => some_seconds(random),
        4 => {
            let unit = random.pick(&[SECOND, MINUTE, HOUR, DAY]);
            up_to(random, LAST / unit) * unit + random.pick(&[-1, 0, 1])
        }
        5 => {
            let decimals = random.pick(&[9, 99]);
            up_to(random, LAST / SECOND) * SECOND + up_to(random, decimals)
        }
        _ => up_to(random, LAST),
    }
}

fn up_to(random: &mut Random, last: i64) -> i64 {
    random.between(0, last as usize) as i64
}

/// A number that would be a likely date, or the end of the range, if times
/// were seconds.
fn some_seconds(random: &mut Random) -> i64 {
    match random.below(4) {
        0 => random.pick(&[86_400, 86_401, 253_402_300_799, 253_402_300_800]),
        _ => up_to(random, 0xffff_ffff),
    }
}

/// The 29 February of some year, or the first of March where the year has none.
fn near_a_march(random: &mut Random) -> i64 {
    new_year(random.between(1970, 9999) as i64) + 59
}

/// Numbers where 32-bit arithmetic is likely to go wrong.
pub const BORDERS32: [u32; 22] = [
    0,
    1,
    2,
    3,
    4,
    5,
    15,
    16,
    17,
    63,
    64,
    65,
    255,
    256,
    32_768,
    65_535,
    65_536,
    0x7fff_fffe,
    0x7fff_ffff,
    0x8000_0000,
    0xffff_fffe,
    0xffff_ffff,
];

pub fn number(random: &mut Random) -> u32 {
    match random.below(6) {
        0 => random.pick(&BORDERS32),
        1 => random.draw() as u32,
        _ => random.below(9) as u32,
    }
}

/// A basic type; those that can be wrong inside a row are the likelier ones.
pub fn basic(random: &mut Random) -> Basic {
    match random.below(3) {
        0 => random.pick(&[Basic::HexBinary, Basic::String, Basic::String, Basic::Boolean, Basic::Boolean]),
        _ => random.pick(&BASICS).1,
    }
}

/// A type that layouts may have, with a derived octet now and then.
pub fn kind(random: &mut Random) -> u32 {
    let low = u32::from(basic(random).low());
    match random.below(4) {
        0 => low | ((random.below(256) as u32) << 8),
        _ => low,
    }
}

/// A type that is refused by 8 or 9, or only just not.
pub fn doubtful_kind(random: &mut Random) -> u32 {
    let good = kind(random);
    match random.below(6) {
        0 => good | 0x8000_0000,
        1 => good | (1 << random.between(16, 31)),
        2 => random.pick(&[0x20, 0x2e, 0, 0xff, 0x0800_0020, 0x8000_0000, 0xffff_ffff, 0x2122]),
        3 => random.draw() as u32,
        4 => random.below(256) as u32,
        _ => good,
    }
}

pub fn bits(random: &mut Random) -> u64 {
    match random.below(6) {
        0 => 0,
        1 => u64::MAX,
        2 => random.pick(&[1, 2, 10, 126, 127, 128, 255, 256, 0x7fff, 0x8000, 0xfffe, 0xffff]),
        3 => random.pick(&[0x7fff_ffff, 0x8000_0000, 0xffff_ffff, 1 << 63, (1 << 63) - 1, 1 << 32]),
        _ => random.draw(),
    }
}

pub fn value(random: &mut Random, basic: Basic) -> Value {
    match basic {
        Basic::HexBinary => Value::octets(basic, &octets(random)),
        Basic::String => Value::octets(basic, &text::string(random)),
        Basic::Boolean => Value::number(basic, random.below(2) as u64),
        _ => Value::number(basic, bits(random)),
    }
}
