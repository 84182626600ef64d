//! Books to lend: the right one, and many that are not.

use super::document;
use super::field;
use super::random::Random;
use super::spoil;
use super::text;
use crate::image::book_octets;
use crate::limits;
use crate::meaning::Layout;

/// A book as it is lent, with the count of its octets said to be used.
#[derive(Clone, Debug)]
pub struct LentBook {
    pub octets: Vec<u8>,
    pub used: u64,
}

/// A book that holds some of the layouts given, others, or no layouts.
pub fn lent_book(random: &mut Random, layouts: &[Vec<u8>]) -> LentBook {
    let mut chosen = layouts.to_vec();
    match random.below(18) {
        0..=2 => {}
        3 | 4 => random.shuffle(&mut chosen),
        5 => {
            random.shuffle(&mut chosen);
            chosen.pop();
        }
        6 => chosen.push(other_layout(random)),
        7 if !chosen.is_empty() => chosen.push(random.pick(layouts)),
        8 => changed(random, &mut chosen),
        9 => {
            let count = random.pick(&[63, 64, 65]);
            chosen = (0..count).map(|number| small(random, number)).collect();
        }
        10 => chosen = full(random),
        11 => chosen = vec![random.octets(60)],
        12 => return short(random, &chosen.concat()),
        13 => return wrongly_used(random, &chosen.concat()),
        14 => chosen.clear(),
        15 | 16 => {
            let place = random.below(chosen.len() + 1);
            chosen.insert(place, badly_named(random));
        }
        _ => chosen.insert(0, other_layout(random)),
    }
    whole(random, &chosen.concat())
}

/// A long enough book with these octets used, as far as a book may be sent.
pub fn whole(random: &mut Random, used: &[u8]) -> LentBook {
    let size = match random.below(6) {
        0 => random.pick(&[limits::BOOK + 1, 40_000]),
        _ => limits::BOOK,
    };
    let size = size.max(used.len()).min(40_000);
    let mut octets = vec![random.pick(&[0, 0x55, 0xff]); size];
    let shared = used.len().min(size);
    octets[..shared].copy_from_slice(&used[..shared]);
    LentBook { octets, used: used.len() as u64 }
}

/// A book of too few octets, or just enough.
fn short(random: &mut Random, used: &[u8]) -> LentBook {
    let size = random.pick(&[0, 1, used.len(), limits::BOOK - 1, limits::BOOK - 1, limits::BOOK]);
    let mut book = whole(random, used);
    book.octets.truncate(size);
    book
}

fn wrongly_used(random: &mut Random, used: &[u8]) -> LentBook {
    let mut book = whole(random, used);
    book.used = odd_used(random, book.used);
    book
}

/// A used count near the one given, near the limit, or past all limits.
pub fn odd_used(random: &mut Random, used: u64) -> u64 {
    match random.below(5) {
        0 => used.saturating_sub(random.between(1, 12) as u64),
        1 => used + random.between(1, 12) as u64,
        2 => used + (1 << random.pick(&[16, 31, 32, 63])),
        3 => random.below(used as usize + 1) as u64,
        _ => random.pick(&[0, 32_767, 32_768, 32_769, 40_000, 1 << 32, 1 << 63, u64::MAX]),
    }
}

fn other_layout(random: &mut Random) -> Vec<u8> {
    book_octets(&some_layout(random))
}

fn badly_named(random: &mut Random) -> Vec<u8> {
    let layout = some_layout(random);
    book_octets(&spoil::badly_named(random, &layout))
}

fn some_layout(random: &mut Random) -> Layout {
    let number = field::number(random);
    let attributes = random.below(4);
    document::layout(random, number, attributes)
}

fn small(random: &mut Random, number: u32) -> Vec<u8> {
    let mut layout = document::layout(random, number, 1);
    text::shorten(&mut layout.name, 20);
    text::shorten(&mut layout.attributes[0].name, 20);
    book_octets(&layout)
}

fn full(random: &mut Random) -> Vec<Vec<u8>> {
    let size = random.pick(&[limits::BOOK - 12, limits::BOOK - 1, limits::BOOK, limits::BOOK + 1]);
    let mut layouts: Vec<Vec<u8>> = document::filling(random, size).iter().map(book_octets).collect();
    random.shuffle(&mut layouts);
    layouts
}

/// One octet of one layout changed: its number, a length, a type or a name.
fn changed(random: &mut Random, layouts: &mut [Vec<u8>]) {
    if layouts.is_empty() {
        return;
    }
    let index = random.below(layouts.len());
    let place = random.below(layouts[index].len());
    layouts[index][place] ^= 1 << random.below(8);
}
