//! Strings of few octets, all that differ in the grammar of UTF-8, each read
//! and given where strings stand.

use super::desk::{fresh, put_book, put_state};
use super::text::{FAULTS, OCTETS, WORDS};
use crate::command::{Argument, Command};
use crate::image::book_octets;
use crate::limits;
use crate::meaning::{Attribute, Layout};
use crate::writer::state::{State, Turn};

/// Every string of one octet, every one of two that begins with more than
/// ASCII or a tail, and those of two to four whose octets are borders.
pub fn short_strings() -> Vec<Vec<u8>> {
    let one = (0..=255).map(|octet| vec![octet]);
    let two = (0xc0..=0xff).flat_map(|first| (0..=255).map(move |second| vec![first, second]));
    one.chain(two).chain(of_borders()).collect()
}

/// Strings of two octets that are borders, of three with a first octet from E0
/// on, and of four with one from F0 on and tails or near them.
pub fn of_borders() -> Vec<Vec<u8>> {
    const NEAR_TAILS: [u8; 8] = [0x7f, 0x80, 0x8f, 0x90, 0x9f, 0xa0, 0xbf, 0xc0];
    let from = |least: u8| OCTETS.into_iter().filter(move |octet| *octet >= least).map(|octet| vec![octet]);
    let mut strings = behind(OCTETS.map(|octet| vec![octet]).into(), &OCTETS);
    strings.extend(behind(behind(from(0xe0).collect(), &OCTETS), &OCTETS));
    let four = behind(behind(from(0xf0).collect(), &NEAR_TAILS), &NEAR_TAILS);
    strings.extend(behind(four, &NEAR_TAILS));
    strings
}

/// Each string with each octet put behind it.
fn behind(strings: Vec<Vec<u8>>, octets: &[u8]) -> Vec<Vec<u8>> {
    strings.iter().flat_map(|string| octets.iter().map(|octet| [&string[..], &[*octet]].concat())).collect()
}

/// Characters and faults at every place of strings of ASCII, up to so many
/// octets before and behind them.
pub fn at_every_place(most: usize) -> Vec<Vec<u8>> {
    const PIECES: [&[u8]; 10] = [
        b"\xc3\xa9",
        b"\xe6\x9d\xb1",
        b"\xf0\x9f\x98\x80",
        b"\x80",
        b"\xff",
        b"\xc3",
        b"\xe6\x9d",
        b"\xf0\x9f\x98",
        b"\xed\xa0\x80",
        b"\xf4\x90\x80\x80",
    ];
    let mut strings = Vec::new();
    for piece in PIECES {
        for before in 0..=most {
            for after in [0, 1, 7, most] {
                strings.push([&vec![b'a'; before][..], piece, &vec![b'z'; after]].concat());
            }
        }
    }
    strings
}

/// The header check of a document that ends behind its recorder: whoever
/// takes the string finds no start time.
pub fn recorders(strings: &[Vec<u8>]) -> Vec<Command> {
    let document = |string: &Vec<u8>| [&[0, 0, 0, 4][..], &led(string)].concat();
    strings.iter().flat_map(|string| [Command::octets(b'D', &document(string)), Command::new(b'h')]).collect()
}

/// The whole check of a document that ends behind a row of one string, with
/// an octet behind it that is a tail: whoever takes the string finds no kind.
pub fn values(strings: &[Vec<u8>]) -> Vec<Command> {
    let header = [&[0, 0, 0, 4][..], &[0; 24], &[0, 0, 0, 16], &[0xff; 16], &[0xff; 4]].concat();
    let layout = [&[0, 0, 0, 1][..], &book_octets(&of_a_string())].concat();
    let row = [0, 0, 0, 2, 0, 0, 0, 7, 0xff, 0xff, 0xff, 0xff];
    let document = |string: &Vec<u8>| [&header[..], &layout, &row, &led(string), &[0x80]].concat();
    strings.iter().flat_map(|string| [Command::octets(b'D', &document(string)), Command::new(b'w')]).collect()
}

/// Each string given to a writer as a recorder and as a value, and all words
/// and faults in every turn that takes a string.
pub fn given() -> Vec<Command> {
    let turns = [
        (Turn::Recorder, b'1'),
        (Turn::DefaultNamespace, b'3'),
        (Turn::Uri, b'5'),
        (Turn::ShortName, b'6'),
        (Turn::Service, b'8'),
        (Turn::TypeName, b'm'),
        (Turn::AttributeName, b'n'),
        (Turn::Value, b'v'),
    ];
    let mut commands = vec![fresh(100), lent(&of_a_string()), open_row()];
    let words = WORDS.map(str::as_bytes).into_iter().chain(FAULTS);
    for string in words {
        for (turn, letter) in turns {
            commands.extend(give(turn, letter, string));
        }
    }
    for string in of_borders().iter().filter(|string| string.len() == 2) {
        commands.extend(give(Turn::Recorder, b'1', string));
    }
    commands
}

/// A state in this turn, in which a row or a layout is open at 20, and a call.
fn give(turn: Turn, letter: u8, string: &[u8]) -> [Command; 2] {
    let count = if turn == Turn::Value { 0 } else { 1 };
    let call = match letter {
        b'v' => Command::numbers(letter, &[0x28, 0]).and(Argument::Octets(string.to_vec())),
        _ => Command::octets(letter, string),
    };
    [put_state(&State { turn, place: 32, count, start: 20, rows: 0 }), call]
}

fn open_row() -> Command {
    Command::numbers(b'P', &[20]).and(Argument::Octets(vec![0, 0, 0, 2, 0, 0, 0, 7, 0, 0, 0, 0]))
}

/// A layout of the number 7 and one string.
fn of_a_string() -> Layout {
    Layout { number: 7, name: vec![], attributes: vec![Attribute { name: vec![], kind: 0x28 }] }
}

fn lent(layout: &Layout) -> Command {
    let mut book = book_octets(layout);
    let used = book.len() as u64;
    book.resize(limits::BOOK, 0);
    put_book(&book, used)
}

fn led(string: &[u8]) -> Vec<u8> {
    [&(string.len() as u32).to_be_bytes()[..], string].concat()
}
