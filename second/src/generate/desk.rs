//! What is lent to a writer and put on its desk, as commands, and a writer
//! that the generator follows.

use super::lent_book::lent_book;
use super::random::Random;
use crate::command::{stream, Argument, Command};
use crate::probe::input::Input;
use crate::probe::writing::{Act, Writing};
use crate::probe::MOST_DOCUMENT;
use crate::writer::state::State;

pub fn fresh(size: usize) -> Command {
    Command::numbers(b'N', &[lent(size) as u64])
}

/// A buffer's size, as far as the probe lends one.
fn lent(size: usize) -> usize {
    size.min(MOST_DOCUMENT as usize)
}

/// A writer followed to know what it accepts.
pub struct Desk {
    pub writing: Writing,
}

impl Desk {
    pub fn new(size: usize) -> Self {
        Desk { writing: Writing::fresh(lent(size)) }
    }

    /// Carries a command out; whether it was a call that is accepted.
    pub fn accepts(&mut self, command: &Command) -> bool {
        let stream = stream(std::slice::from_ref(command));
        let mut input = Input::new(&stream);
        let act = input.letter().and_then(|letter| self.writing.act(letter, &mut input));
        matches!(act, Some(Act::Called(Ok(()))))
    }
}

pub fn put_state(state: &State) -> Command {
    Command::numbers(b'S', &[state.turn as u64, state.place, state.count, state.start, state.rows])
}

/// A book that holds these layouts, or some other.
pub fn some_book(random: &mut Random, layouts: &[Vec<u8>]) -> Command {
    let book = lent_book(random, layouts);
    put_book(&book.octets, book.used)
}

pub fn put_book(octets: &[u8], used: u64) -> Command {
    Command::octets(b'W', octets).and(Argument::Number(used))
}
