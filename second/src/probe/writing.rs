//! The writing half of the probe.

use super::input::Input;
use super::reading::{refused, MOST_BOOK};
use super::reply::Reply;
use super::sum::sum;
use super::MOST_DOCUMENT;
use crate::basic::Basic;
use crate::hex;
use crate::limits;
use crate::refusal::Answer;
use crate::writer;
use crate::writer::call::{Call, Given};
use crate::writer::state::{State, TURNS};

/// What a command was: something lent, a question for the image, or a call.
pub enum Act {
    Lent,
    Asked,
    Called(Answer<()>),
}

/// The writer's state and all that is lent to it.
#[derive(Clone, Debug, Default)]
pub struct Writing {
    pub state: State,
    pub buffer: Vec<u8>,
    pub book: Vec<u8>,
    pub used: u64,
}

impl Writing {
    /// A fresh state over a buffer of some size and an empty book.
    pub fn fresh(size: usize) -> Self {
        Writing { state: State::default(), buffer: vec![0xaa; size], book: vec![0x55; limits::BOOK], used: 0 }
    }

    /// The answer to one of the commands of writing.
    pub fn command(&mut self, letter: u8, input: &mut Input) -> Option<Reply> {
        Some(match self.act(letter, input)? {
            Act::Lent => Reply::Silent,
            Act::Asked => Reply::Line(format!("image {}", hex::word(self.image()))),
            Act::Called(answer) => Reply::Line(self.line(answer)),
        })
    }

    /// What one of the commands of writing does.
    pub fn act(&mut self, letter: u8, input: &mut Input) -> Option<Act> {
        match letter {
            b'N' => *self = Writing::fresh(size(input.number()?)?),
            b'W' => {
                self.book = input.octets(MOST_BOOK)?.to_vec();
                self.used = input.number()?;
            }
            b'S' => self.state = state(input)?,
            b'P' => self.put(input.number()?, input.octets(u64::MAX)?),
            b'i' => return Some(Act::Asked),
            _ => return Some(Act::Called(self.call(&call(letter, input)?))),
        }
        Some(Act::Lent)
    }

    fn call(&mut self, call: &Call) -> Answer<()> {
        (self.state, self.used) =
            writer::call(self.state, &mut self.buffer, &mut self.book, self.used, call)?;
        Ok(())
    }

    fn line(&self, answer: Answer<()>) -> String {
        let words = match answer {
            Ok(()) => format!("done {} {}", self.state.place, self.used),
            Err(refusal) => refused(refusal),
        };
        format!("{words} {:016x} {:016x}", sum(&self.buffer), sum(&self.book))
    }

    /// Octets put at a place, as far as the buffer reaches.
    fn put(&mut self, at: u64, octets: &[u8]) {
        let from = self.reach(at);
        let to = self.reach(at.saturating_add(octets.len() as u64));
        self.buffer[from..to].copy_from_slice(&octets[..to - from]);
    }

    fn image(&self) -> &[u8] {
        &self.buffer[..self.reach(self.state.place)]
    }

    fn reach(&self, place: u64) -> usize {
        place.min(self.buffer.len() as u64) as usize
    }
}

fn size(size: u64) -> Option<usize> {
    (size <= MOST_DOCUMENT).then_some(size as usize)
}

fn state(input: &mut Input) -> Option<State> {
    let turn = *TURNS.get(usize::try_from(input.number()?).ok()?)?;
    let (place, count) = (input.number()?, input.number()?);
    let (start, rows) = (input.number()?, input.number()?);
    Some(State { turn, place, count, start, rows })
}

fn call<'a>(letter: u8, input: &mut Input<'a>) -> Option<Call<'a>> {
    Some(match letter {
        b'1' => Call::Recorder(octets(input)?),
        b'2' => Call::StartTime(input.number()? as i64),
        b'3' => Call::DefaultNamespace(octets(input)?),
        b'4' => Call::NamespaceCount(input.number32()?),
        b'5' => Call::Uri(octets(input)?),
        b'6' => Call::ShortName(octets(input)?),
        b'7' => Call::ServiceCount(input.number32()?),
        b'8' => Call::Service(octets(input)?),
        b'9' => Call::DocumentId(octets(input)?),
        b'k' => Call::OpenLayout(input.number32()?),
        b'm' => Call::TypeName(octets(input)?),
        b'c' => Call::AttributeCount(input.number32()?),
        b'n' => Call::AttributeName(octets(input)?),
        b'u' => Call::AttributeType(input.number32()?),
        b'o' => Call::OpenRow { number: input.number32()?, stated: stated(input.number()?)? },
        b'v' => Call::Value(given(input)?),
        b'x' => Call::CloseRow,
        b'z' => Call::GiveUp,
        b'e' => Call::Finish(input.number()? as i64),
        _ => return None,
    })
}

fn octets<'a>(input: &mut Input<'a>) -> Option<&'a [u8]> {
    input.octets(MOST_DOCUMENT)
}

fn stated(number: u64) -> Option<bool> {
    match number {
        0 => Some(false),
        1 => Some(true),
        _ => None,
    }
}

fn given<'a>(input: &mut Input<'a>) -> Option<Given<'a>> {
    let basic = Basic::of(u8::try_from(input.number()?).ok()?)?;
    Some(Given { basic, bits: input.number()?, octets: octets(input)? })
}
