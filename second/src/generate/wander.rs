//! Scripts that leave their way and come back to it.

use super::call::fitting_call;
use super::desk::{fresh, put_book, put_state, some_book, Desk};
use super::random::Random;
use super::stray::{stray_octets, stray_state};
use crate::command::Command;
use crate::image::book_octets;
use crate::meaning::Document;
use crate::probe::writing::Writing;

/// A script that now and then is led astray for a few calls, by another
/// state, other octets in the buffer or another book, and then led back.
pub fn wander(random: &mut Random, document: &Document, calls: &[Command], size: usize) -> Vec<Command> {
    let size = size + random.below(60);
    let mut desk = Desk::new(size);
    let mut commands = vec![fresh(size)];
    let mut push = |desk: &mut Desk, command: Command| {
        desk.accepts(&command);
        commands.push(command);
    };
    let layouts: Vec<Vec<u8>> = document.layouts().into_iter().map(book_octets).collect();
    for call in calls {
        if random.one_in(4) {
            let good = desk.writing.state;
            let book = put_book(&desk.writing.book, desk.writing.used);
            let stray = astray(random, &desk.writing, &layouts);
            let lends = stray[0].letter == b'W';
            for command in stray {
                push(&mut desk, command);
            }
            for _ in 0..random.between(1, 3) {
                let call = fitting_call(random, desk.writing.state.turn, document);
                push(&mut desk, call);
            }
            push(&mut desk, put_state(&good));
            if lends {
                push(&mut desk, book);
            }
        }
        push(&mut desk, call.clone());
    }
    push(&mut desk, Command::new(b'i'));
    commands
}

fn astray(random: &mut Random, writing: &Writing, layouts: &[Vec<u8>]) -> Vec<Command> {
    let room = writing.buffer.len() as u64;
    match random.below(18) {
        0..=2 => vec![stray_octets(random, &writing.state)],
        3 => vec![some_book(random, layouts)],
        4..=6 => {
            vec![stray_octets(random, &writing.state), put_state(&stray_state(random, &writing.state, room))]
        }
        _ => vec![put_state(&stray_state(random, &writing.state, room))],
    }
}
