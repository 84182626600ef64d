//! Elements and books that no call put there.

use super::call::{fitting_call, spoiled};
use super::desk::{fresh, put_book, put_state, some_book};
use super::document::{filling, layout};
use super::lent_book::whole;
use super::random::Random;
use super::script::open_layout;
use super::spoil;
use crate::command::{Argument, Command};
use crate::image::{book_octets, image};
use crate::limits;
use crate::meaning::{Document, Layout};
use crate::writer::state::{State, Turn};

/// A layout or a row put into the buffer as octets, a state in which it is
/// open, a book that may know it, and calls on it.
pub fn opened_by_hand(random: &mut Random, document: &Document) -> Vec<Command> {
    let mut commands = vec![fresh(random.between(40, 400))];
    let put = match random.below(4) {
        0 => spoil::spoiled(random, document),
        _ => document.clone(),
    };
    let layouts: Vec<Vec<u8>> = document.layouts().into_iter().map(book_octets).collect();
    for _ in 0..random.between(1, 4) {
        let start = random.below(30) as u64;
        let element = random.pick(&image(&put).pieces());
        let place = start + (element.len() as u64).saturating_sub(random.pick(&[0, 0, 1, 4, 4, 4, 9]));
        let turn = match element[3] {
            1 => random.pick(&[
                Turn::AttributeType,
                Turn::AttributeType,
                Turn::AttributeCount,
                Turn::AttributeName,
            ]),
            2 => Turn::Value,
            _ => random.pick(&[Turn::Value, Turn::TypeName, Turn::Element]),
        };
        let count = random.pick(&[0, 1, 1, 1, 2, 3]);
        let rows = random.pick(&[0, 0, 1, 1_048_575, 1_048_576]);
        commands.push(Command::numbers(b'P', &[start]).and(Argument::Octets(element.clone())));
        commands.push(some_book(random, &layouts));
        commands.push(put_state(&State { turn, place, count, start, rows }));
        if turn == Turn::AttributeType && element.len() >= 4 {
            commands.push(last_type(&element));
        }
        for _ in 0..random.between(1, 3) {
            commands.push(fitting_call(random, turn, document));
        }
    }
    commands.push(Command::new(b'i'));
    commands
}

/// A layout given over a book that has just room for it, or just not; a
/// number of the book's own makes it one that differs.
pub fn into_a_full_book(random: &mut Random) -> Vec<Command> {
    let number = random.pick(&[1, 1000, 1000, 1000]);
    let attributes = random.below(3);
    let layout = layout(random, number, attributes);
    let size = book_octets(&layout).len();
    let used = match random.below(3) {
        0 => filling(random, limits::BOOK - size),
        1 => filling(random, limits::BOOK - size + 1),
        _ => (0..random.pick(&[63, 64])).map(|number| Layout { number, ..layout.clone() }).collect(),
    };
    let used: Vec<u8> = used.iter().flat_map(book_octets).collect();
    let book = whole(random, &used);
    let mut commands = vec![fresh(random.pick(&[size, size + 3, size + 4, 700]))];
    commands.push(put_state(&State { turn: Turn::Element, ..State::default() }));
    commands.push(put_book(&book.octets, book.used));
    for call in open_layout(&layout) {
        if random.one_in(4) {
            commands.extend(spoiled(random, &call));
        }
        commands.push(call);
    }
    commands.extend([b'z', b'i'].map(Command::new));
    commands
}

/// The call that completes a layout with the type its octets end with.
fn last_type(layout: &[u8]) -> Command {
    let mut last = [0; 8];
    last[4..].copy_from_slice(&layout[layout.len() - 4..]);
    Command::numbers(b'u', &[u64::from_be_bytes(last)])
}
