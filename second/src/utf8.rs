//! Which octets are well-formed UTF-8, by the grammar of RFC 3629, section 4.

use std::ops::RangeInclusive;

type Octet = RangeInclusive<u8>;

const TAIL: Octet = 0x80..=0xbf;

/// Every form that the octets of one character have.
const CHARACTERS: [&[Octet]; 9] = [
    &[0x00..=0x7f],
    &[0xc2..=0xdf, TAIL],
    &[0xe0..=0xe0, 0xa0..=0xbf, TAIL],
    &[0xe1..=0xec, TAIL, TAIL],
    &[0xed..=0xed, 0x80..=0x9f, TAIL],
    &[0xee..=0xef, TAIL, TAIL],
    &[0xf0..=0xf0, 0x90..=0xbf, TAIL, TAIL],
    &[0xf1..=0xf3, TAIL, TAIL, TAIL],
    &[0xf4..=0xf4, 0x80..=0x8f, TAIL, TAIL],
];

/// Whether the octets are characters one behind another, perhaps none.
pub fn is_well_formed(octets: &[u8]) -> bool {
    let mut rest = octets;
    while !rest.is_empty() {
        match CHARACTERS.iter().find(|form| begins_with(rest, form)) {
            Some(form) => rest = &rest[form.len()..],
            None => return false,
        }
    }
    true
}

fn begins_with(octets: &[u8], form: &[Octet]) -> bool {
    octets.len() >= form.len() && form.iter().zip(octets).all(|(range, octet)| range.contains(octet))
}
