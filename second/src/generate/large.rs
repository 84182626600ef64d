//! Documents too large for the probe, about the limit of all documents.

use super::damage;
use super::document::{self, padded};
use super::lent_book::whole;
use super::random::Random;
use super::visit::{visits, Visit};
use super::Case;
use crate::command::Command;
use crate::image::image;
use crate::limits;
use crate::meaning::{Document, Item, Layout};

/// How many large cases there are.
pub const COUNT: u64 = 12;

pub fn case(seed: u64, index: u64) -> Case {
    let mut random = Random::of(seed, u64::MAX - index);
    let document = octets(&mut random, index);
    let commands = commands(&mut random, &document);
    Case { document, commands }
}

fn octets(random: &mut Random, index: u64) -> Vec<u8> {
    let small = document::small(random);
    match index {
        0 => image(&padded(small, limits::DOCUMENT)).octets,
        1 => image(&padded(small, limits::DOCUMENT + 1)).octets,
        2 => image(&padded(small, 2 * limits::DOCUMENT)).octets,
        3 => image(&with_rows(random, 80_000)).octets,
        4 => image(&padded(with_rows(random, 40_000), limits::DOCUMENT)).octets,
        5 => image(&padded(small, limits::DOCUMENT - 1)).octets,
        6 => [image(&padded(small, limits::DOCUMENT)).octets, vec![0]].concat(),
        7 => {
            let image = image(&with_rows(random, 60_000));
            damage::damaged(random, &image)
        }
        8 => damage::damaged(random, &image(&padded(small, limits::DOCUMENT - 20))),
        9 => image(&padded(of_a_script(small), limits::DOCUMENT)).octets,
        10 => image(&ending_badly(padded(of_a_script(small), limits::DOCUMENT))).octets,
        _ => image(&ending_badly(padded(small, limits::DOCUMENT))).octets,
    }
}

/// The document with a long recorder of characters of two to four octets.
fn of_a_script(mut document: Document) -> Document {
    document.header.recorder = "Ж東😀".repeat(100_000).into_bytes();
    document
}

/// The document with a fault in the last octet of its recorder, which has some.
fn ending_badly(mut document: Document) -> Document {
    let recorder = &mut document.header.recorder;
    recorder.pop();
    recorder.push(0xe9);
    document
}

/// A document of rows that take twelve octets each.
fn with_rows(random: &mut Random, count: usize) -> Document {
    let layout = Layout { number: 9, name: vec![], attributes: vec![] };
    let mut items = vec![Item::Layout(layout.clone())];
    items.extend((0..count).map(|_| Item::Row(document::row(random, &layout))));
    Document { items, ..document::small(random) }
}

fn commands(random: &mut Random, document: &[u8]) -> Vec<Command> {
    let seen = visits(document);
    let book = whole(random, &seen.layouts.concat());
    let mut commands = vec![
        Command::octets(b'D', document),
        Command::octets(b'B', &book.octets),
        Command::new(b'h'),
        Command::new(b'w'),
    ];
    let mut visited: Vec<Visit> = seen.visits.iter().rev().take(2).copied().collect();
    for _ in 0..6 {
        if !seen.visits.is_empty() {
            visited.push(random.pick(&seen.visits));
        }
        visited.push(Visit { place: random.below(document.len() + 1) as u64, rows: 0, used: 0 });
    }
    for visit in visited {
        commands.push(Command::numbers(b's', &[visit.place, visit.rows, book.used]));
    }
    commands
}
