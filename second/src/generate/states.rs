//! Writer's states about every border, each with the calls of its turn.

use super::desk::{fresh, put_book, put_state};
use crate::command::{Argument, Command};
use crate::limits;
use crate::specimen::SPECIMEN;
use crate::writer::state::{State, Turn, TURNS};

const ROOM: u64 = 100;

/// For every turn a good state, and others that differ from it in one part.
pub fn every_border() -> Vec<Command> {
    let mut commands = vec![fresh(ROOM as usize)];
    for turn in TURNS {
        let good = State { turn, place: 50, count: 1, start: 38, rows: 0 };
        commands.push(specimen_book());
        for state in neighbours(good) {
            for call in calls(turn) {
                // A last type completes what is no layout, and spoils the book.
                if turn == Turn::AttributeType {
                    commands.push(specimen_book());
                }
                commands.push(opened(turn));
                commands.push(put_state(&state));
                commands.push(call);
            }
        }
        commands.push(Command::new(b'i'));
    }
    commands
}

fn neighbours(good: State) -> Vec<State> {
    let counts = [0, 1, 2, 3, 15, 16, 17, 63, 64, 65, u64::MAX];
    let rows = [1, limits::ROWS - 1, limits::ROWS, limits::ROWS + 1, 1 << 32, u64::MAX];
    let places = [
        (50, 42),
        (50, 43),
        (50, 39),
        (50, 51),
        (50, u64::MAX),
        (50, u64::MAX - 7),
        (7, 0),
        (8, 0),
        (11, 0),
        (12, 0),
        (ROOM - 1, 38),
        (ROOM, 38),
        (ROOM + 1, 38),
        (u64::MAX, 38),
        (1 << 32 | 50, 38),
    ];
    let counts = counts.map(|count| State { count, ..good });
    let rows = rows.map(|rows| State { rows, ..good });
    let places = places.map(|(place, start)| State { place, start, ..good });
    [&counts[..], &rows, &places].concat()
}

/// The specimen's layout, which has two fields.
fn specimen_book() -> Command {
    let mut book = SPECIMEN[56..87].to_vec();
    let used = book.len() as u64;
    book.resize(limits::BOOK, 0);
    put_book(&book, used)
}

/// The buffer with a row of the specimen's layout open at 38, or in another
/// turn a layout that the book does not have.
fn opened(turn: Turn) -> Command {
    let number = if turn == Turn::Value { 7 } else { 9 };
    let mut octets = vec![0xaa; ROOM as usize];
    octets[38..50].copy_from_slice(&[0, 0, 0, 2, 0, 0, 0, number, 0, 0, 0, 0]);
    Command::numbers(b'P', &[0]).and(Argument::Octets(octets))
}

/// Every call that the turn allows, and at last one that it does not.
fn calls(turn: Turn) -> Vec<Command> {
    let text = |letter| Command::octets(letter, b"x");
    let bad = |letter| Command::octets(letter, b"x\xe9");
    let number = |letter, n| Command::numbers(letter, &[n]);
    let value = |basic| Command::numbers(b'v', &[basic, 1]).and(Argument::Octets(vec![]));
    let give_up = Command::new(b'z');
    match turn {
        Turn::Recorder => vec![text(b'1'), bad(b'1'), give_up],
        Turn::StartTime => vec![number(b'2', 1), give_up],
        Turn::DefaultNamespace => vec![text(b'3'), bad(b'3'), give_up],
        Turn::NamespaceCount => vec![number(b'4', 16), number(b'4', 17), give_up],
        Turn::Uri => vec![text(b'5'), bad(b'5'), give_up],
        Turn::ShortName => vec![text(b'6'), bad(b'6'), text(b'5'), bad(b'5')],
        Turn::ServiceCount => vec![number(b'7', 16), number(b'7', 17), give_up],
        Turn::Service => vec![text(b'8'), bad(b'8'), give_up],
        Turn::DocumentId => vec![Command::octets(b'9', &[0xe9; 16]), text(b'9'), bad(b'9'), give_up],
        Turn::Element => {
            let rows = [7, 9].map(|layout| Command::numbers(b'o', &[layout, 1]));
            [&[number(b'k', 1), number(b'e', 1), give_up][..], &rows].concat()
        }
        Turn::TypeName => vec![text(b'm'), bad(b'm'), give_up, Command::new(b'x')],
        Turn::AttributeCount => vec![number(b'c', 0), number(b'c', 64), number(b'c', 65), give_up],
        Turn::AttributeName => vec![text(b'n'), bad(b'n'), give_up, text(b'm')],
        Turn::AttributeType => vec![number(b'u', 0x21), number(b'u', 0x20), give_up],
        Turn::Value => vec![value(0x22), value(0x2a), Command::new(b'x'), give_up, text(b'n')],
        Turn::Nothing => vec![number(b'e', 1), text(b'1'), give_up],
    }
}
