//! Values given to the writer, right and wrong ones.

use super::desk::{fresh, put_book, put_state};
use crate::basic::{Basic, BASICS};
use crate::command::{Argument, Command};
use crate::image::book_octets;
use crate::limits;
use crate::meaning::{Attribute, Layout};
use crate::writer::state::{State, Turn};

/// No string, but a hexBinary like others.
const BAD: &[u8] = b"Jos\xe9";

/// A row of every type that is given a value of every type in each field,
/// and of the type string a bad one before each other value.
pub fn every_value() -> Vec<Command> {
    let attribute = |(low, _): &(u8, Basic)| Attribute { name: vec![], kind: (*low).into() };
    let layout = Layout { number: 7, name: vec![], attributes: BASICS.iter().map(attribute).collect() };
    let mut book = book_octets(&layout);
    let used = book.len() as u64;
    book.resize(limits::BOOK, 0);
    let mut commands = vec![fresh(200), put_book(&book, used)];
    commands.push(put_state(&State { turn: Turn::Element, ..State::default() }));
    commands.push(Command::numbers(b'o', &[7, 1]));
    for field in 0..=BASICS.len() {
        let (right, wrong): (Vec<_>, Vec<_>) = BASICS.iter().zip(0..).partition(|(_, index)| *index == field);
        for ((low, basic), _) in wrong.into_iter().chain(right) {
            commands.push(value(Basic::String.low(), 0, BAD));
            let octets = if *basic == Basic::HexBinary { BAD } else { b"octets" };
            commands.extend(bits(*basic).iter().map(|bits| value(*low, *bits, octets)));
        }
        commands.push(Command::new(b'x'));
    }
    commands.push(Command::new(b'i'));
    commands
}

/// Bits to be given; a boolean is right only with the last of them.
fn bits(basic: Basic) -> &'static [u64] {
    match basic {
        Basic::Boolean => &[2, 3, 0x80, 0xff, 0x102, u64::MAX, 0xff01],
        _ => &[0xfedc_ba98_7654_3210],
    }
}

fn value(low: u8, bits: u64, octets: &[u8]) -> Command {
    Command::numbers(b'v', &[low.into(), bits]).and(Argument::Octets(octets.to_vec()))
}
