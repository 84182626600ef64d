//! Strings: well-formed ones of many scripts, and such as are not UTF-8.

use super::random::Random;

/// The first and last octet of each range of the grammar of UTF-8, and
/// octets that stand in none.
pub const OCTETS: [u8; 24] = [
    0x00, 0x7f, 0x80, 0x8f, 0x90, 0x9f, 0xa0, 0xbf, 0xc0, 0xc1, 0xc2, 0xdf, 0xe0, 0xe1, 0xec, 0xed, 0xee,
    0xef, 0xf0, 0xf1, 0xf3, 0xf4, 0xf5, 0xff,
];

/// Characters where the grammar changes its form, the mark of byte order, and
/// the two numbers that are no characters.
pub const CHARACTERS: [char; 21] = [
    '\0',
    '\u{7f}',
    '\u{80}',
    '\u{7ff}',
    '\u{800}',
    '\u{fff}',
    '\u{1000}',
    '\u{cfff}',
    '\u{d000}',
    '\u{d7ff}',
    '\u{e000}',
    '\u{feff}',
    '\u{fffd}',
    '\u{fffe}',
    '\u{ffff}',
    '\u{10000}',
    '\u{3ffff}',
    '\u{40000}',
    '\u{fffff}',
    '\u{100000}',
    '\u{10ffff}',
];

pub const WORDS: [&str; 12] = [
    "José",
    "Größe",
    "Łódź",
    "Привет",
    "улица Мира",
    "Αθήνα",
    "שלום",
    "नमस्ते",
    "東京都",
    "北京市朝阳区",
    "😀",
    "\u{feff}mark",
];

/// What no string may have: tails that nothing leads, forms longer than they
/// need be, surrogates, numbers past the last one, octets of no form, and
/// sequences that are cut; these are interrupted where more follows.
pub const FAULTS: [&[u8]; 33] = [
    b"\x80",
    b"\xbf",
    b"\xa0\xa0",
    b"\xc0\x80",
    b"\xc1\xbf",
    b"\xe0\x80\x80",
    b"\xe0\x9f\xbf",
    b"\xf0\x80\x80\x80",
    b"\xf0\x8f\xbf\xbf",
    b"\xed\xa0\x80",
    b"\xed\xbf\xbf",
    b"\xed\xa0\xbd\xed\xb8\x80",
    b"\xf4\x90\x80\x80",
    b"\xf4\xbf\xbf\xbf",
    b"\xf5\x80\x80\x80",
    b"\xf7\xbf\xbf\xbf",
    b"\xf8\x88\x80\x80\x80",
    b"\xfc\x84\x80\x80\x80\x80",
    b"\xfe",
    b"\xff",
    b"\xe9",
    b"\xc2",
    b"\xdf",
    b"\xe0\xa0",
    b"\xe1\x80",
    b"\xed\x9f",
    b"\xef\xbf",
    b"\xf0\x90",
    b"\xf0\x90\x80",
    b"\xf1",
    b"\xf3\xbf\xbf",
    b"\xf4\x8f",
    b"\xf4\x8f\xbf",
];

pub fn string(random: &mut Random) -> Vec<u8> {
    well_formed(random).into_bytes()
}

fn well_formed(random: &mut Random) -> String {
    const ODD: &[char] = &['\0', '\n', '\x1f', ' ', '!', '%', '=', '0', '~', '\x7f'];
    match random.below(12) {
        0 | 1 => String::new(),
        2..=5 => letters(random, 8),
        6 => (0..random.between(1, 6)).map(|_| random.pick(ODD)).collect(),
        7 => (0..random.between(1, 3)).map(|_| random.pick(&WORDS)).collect(),
        8 => (0..random.between(1, 5)).map(|_| random.pick(&CHARACTERS)).collect(),
        9 => (0..random.between(1, 13)).map(|_| any_character(random)).collect(),
        10 => letters(random, 40) + &any_character(random).to_string() + &letters(random, 40),
        _ if random.one_in(8) => {
            let size = random.pick(&[255, 256, 257, 600]);
            (0..size).map(|_| any_character(random)).collect()
        }
        _ => any_character(random).to_string(),
    }
}

fn letters(random: &mut Random, most: usize) -> String {
    (0..random.between(1, most)).map(|_| char::from(random.between(0x61, 0x7a) as u8)).collect()
}

/// A character of one, two, three or four octets, each as likely.
fn any_character(random: &mut Random) -> char {
    let (first, last) = random.pick(&[(0, 0x7f), (0x80, 0x7ff), (0x800, 0xffff), (0x1_0000, 0x10_ffff)]);
    char::from_u32(random.between(first, last) as u32).unwrap_or('\u{d7ff}')
}

/// A string with one fault: at its beginning, at its end, or between any two
/// of its characters.
pub fn bad(random: &mut Random) -> Vec<u8> {
    let mut text = string(random);
    let place = match random.below(3) {
        0 => 0,
        1 => text.len(),
        _ => some_border(random, &text),
    };
    text.splice(place..place, random.pick(&FAULTS).iter().copied());
    text
}

/// A place where a character of a well-formed string begins, or its end.
fn some_border(random: &mut Random, text: &[u8]) -> usize {
    let is_border = |place: &usize| text.get(*place).is_none_or(|octet| octet & 0xc0 != 0x80);
    let borders: Vec<usize> = (0..=text.len()).filter(is_border).collect();
    random.pick(&borders)
}

/// Puts a fault over some octets of a string that has any.
pub fn spoil(random: &mut Random, text: &mut [u8]) {
    let fitting: Vec<&[u8]> = FAULTS.into_iter().filter(|fault| fault.len() <= text.len()).collect();
    if fitting.is_empty() {
        return;
    }
    let fault = random.pick(&fitting);
    let last = text.len() - fault.len();
    let place = match random.below(3) {
        0 => 0,
        1 => last,
        _ => random.below(last + 1),
    };
    text[place..place + fault.len()].copy_from_slice(fault);
}

/// Cuts a string behind the last of its characters that is within so many octets.
pub fn shorten(text: &mut Vec<u8>, most: usize) {
    while text.len() > most || std::str::from_utf8(text).is_err() {
        text.pop();
    }
}
