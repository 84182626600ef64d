//! What a call in turn would do, or the number of its refusal.

use super::call::{Call, Given};
use super::state::{State, Turn};
use crate::basic::{Basic, Type};
use crate::book::Book;
use crate::element::Kind;
use crate::header::{NO_ELEMENT_COUNT, VERSION};
use crate::layout::Attribute;
use crate::limits;
use crate::row::UNSTATED;
use crate::utf8;

/// The changes of an accepted call.
#[derive(Clone, Debug, PartialEq, Eq)]
pub struct Plan {
    /// The state afterwards.
    pub next: State,
    /// Octets put at the place.
    pub put: Vec<u8>,
    /// A layout appended to the book.
    pub layout: Option<Vec<u8>>,
    /// A length put into the open row.
    pub length: Option<u32>,
    /// Whether the open element's octets are set to zero.
    pub zeroed: bool,
}

/// A sound state in whose turn the call is, with what was lent.
pub struct Asked<'a> {
    pub state: State,
    pub buffer: &'a [u8],
    pub book: &'a Book<'a>,
}

impl Asked<'_> {
    pub fn plan(&self, call: &Call) -> Result<Plan, u8> {
        match *call {
            Call::Recorder(octets) => {
                Ok(self.put(Turn::StartTime, [words(&[VERSION]), string(octets)?].concat()))
            }
            Call::StartTime(time) => Ok(self.put(Turn::DefaultNamespace, time.to_be_bytes().to_vec())),
            Call::DefaultNamespace(octets) => Ok(self.put(Turn::NamespaceCount, string(octets)?)),
            Call::NamespaceCount(n) => self.list(n, limits::LISTED, Turn::Uri, Turn::ServiceCount),
            Call::Uri(octets) => Ok(self.put(Turn::ShortName, string(octets)?)),
            Call::ShortName(octets) => self.listed(octets, Turn::Uri, Turn::ServiceCount),
            Call::ServiceCount(n) => self.list(n, limits::LISTED, Turn::Service, Turn::DocumentId),
            Call::Service(octets) => self.listed(octets, Turn::Service, Turn::DocumentId),
            Call::DocumentId(octets) => self.document_id(octets),
            Call::OpenLayout(number) => {
                Ok(self.open(Turn::TypeName, words(&[Kind::Layout.number(), number])))
            }
            Call::TypeName(octets) => Ok(self.put(Turn::AttributeCount, string(octets)?)),
            Call::AttributeCount(0) => self.complete(words(&[0])),
            Call::AttributeCount(n) => self.list(n, limits::ATTRIBUTES, Turn::AttributeName, Turn::Element),
            Call::AttributeName(octets) => Ok(self.put(Turn::AttributeType, string(octets)?)),
            Call::AttributeType(bits) => self.attribute_type(bits),
            Call::OpenRow { number, stated } => self.open_row(number, stated),
            Call::Value(given) => self.value(&given),
            Call::CloseRow => self.close_row(),
            Call::GiveUp => Ok(self.give_up()),
            Call::Finish(time) => Ok(self.finish(time)),
        }
    }

    /// Octets put at the place, and the turn behind them.
    fn put(&self, turn: Turn, put: Vec<u8>) -> Plan {
        let place = self.state.place + put.len() as u64;
        let next = State { turn, place, ..self.state };
        Plan { next, put, layout: None, length: None, zeroed: false }
    }

    /// A count, and the turn of its items or of what stands behind the list.
    fn list(&self, n: u32, limit: u32, item: Turn, behind: Turn) -> Result<Plan, u8> {
        if n > limit {
            return Err(4);
        }
        let mut plan = self.put(if n > 0 { item } else { behind }, words(&[n]));
        plan.next.count = n.into();
        Ok(plan)
    }

    /// The last string of an item, and the turn of the next or behind the list.
    fn listed(&self, octets: &[u8], item: Turn, behind: Turn) -> Result<Plan, u8> {
        let left = self.state.count - 1;
        let mut plan = self.put(if left > 0 { item } else { behind }, string(octets)?);
        plan.next.count = left;
        Ok(plan)
    }

    fn document_id(&self, octets: &[u8]) -> Result<Plan, u8> {
        if octets.len() != limits::ID {
            return Err(5);
        }
        Ok(self.put(Turn::Element, [led(octets), NO_ELEMENT_COUNT.to_vec()].concat()))
    }

    fn open(&self, turn: Turn, put: Vec<u8>) -> Plan {
        let mut plan = self.put(turn, put);
        plan.next.start = self.state.place;
        plan.next.count = 0;
        plan
    }

    fn attribute_type(&self, bits: u32) -> Result<Plan, u8> {
        Type::of(bits)?;
        if self.state.count == 1 {
            return self.complete(words(&[bits]));
        }
        let mut plan = self.put(Turn::AttributeName, words(&[bits]));
        plan.next.count -= 1;
        Ok(plan)
    }

    /// The call that completes a layout: the octets behind its kind, as they
    /// stand in the buffer and with this call's own, are known, new, or refused.
    fn complete(&self, put: Vec<u8>) -> Result<Plan, u8> {
        let State { start, place, .. } = self.state;
        let layout = [&self.buffer[start as usize + 4..place as usize], &put].concat();
        let new = self.book.admits(self.open_number(), &layout)?;
        let mut plan = self.put(Turn::Element, put);
        plan.next.count = 0;
        plan.layout = new.then_some(layout);
        Ok(plan)
    }

    fn open_row(&self, number: u32, stated: bool) -> Result<Plan, u8> {
        if self.book.find(number).is_none() {
            return Err(12);
        }
        let length = if stated { 0 } else { UNSTATED };
        Ok(self.open(Turn::Value, words(&[Kind::Row.number(), number, length])))
    }

    fn value(&self, given: &Given) -> Result<Plan, u8> {
        let next = self.open_attributes()?.get(self.state.count as usize);
        let basic = next.map(|attribute| attribute.kind.basic);
        let is_bad_boolean = given.basic == Basic::Boolean && given.bits as u8 > 1;
        if basic != Some(given.basic) || is_bad_boolean {
            return Err(21);
        }
        let mut plan = self.put(Turn::Value, given.image()?);
        plan.next.count += 1;
        Ok(plan)
    }

    fn close_row(&self) -> Result<Plan, u8> {
        if self.state.count < self.open_attributes()?.len() as u64 {
            return Err(22);
        }
        let mut plan = self.put(Turn::Element, vec![]);
        let length = self.state.place - self.state.start - 12;
        plan.length = (self.open_word(8) != UNSTATED).then_some(length as u32);
        plan.next.rows += 1;
        Ok(plan)
    }

    fn give_up(&self) -> Plan {
        let mut plan = self.put(Turn::Element, vec![]);
        plan.next.place = self.state.start;
        plan.zeroed = true;
        plan
    }

    fn finish(&self, time: i64) -> Plan {
        let first = words(&[Kind::End.number(), self.state.rows as u32]);
        self.put(Turn::Nothing, [&first[..], &time.to_be_bytes()].concat())
    }

    /// The fields of the open row, or 12 where its layout left the book.
    fn open_attributes(&self) -> Result<&[Attribute<'_>], u8> {
        self.book.find(self.open_number()).map(|layout| &layout.attributes[..]).ok_or(12)
    }

    /// The number of the open element, as it stands in the buffer.
    fn open_number(&self) -> u32 {
        self.open_word(4)
    }

    fn open_word(&self, behind: usize) -> u32 {
        let place = self.state.start as usize + behind;
        let mut word = [0; 4];
        word.copy_from_slice(&self.buffer[place..place + 4]);
        u32::from_be_bytes(word)
    }
}

impl Given<'_> {
    fn image(&self) -> Result<Vec<u8>, u8> {
        match self.basic.width() {
            Some(width) => Ok(self.bits.to_be_bytes()[8 - width..].to_vec()),
            None if self.basic == Basic::String => string(self.octets),
            None => Ok(led(self.octets)),
        }
    }
}

fn words(words: &[u32]) -> Vec<u8> {
    words.iter().flat_map(|word| word.to_be_bytes()).collect()
}

/// A string behind its length, or 24 where it is not UTF-8.
fn string(octets: &[u8]) -> Result<Vec<u8>, u8> {
    if !utf8::is_well_formed(octets) {
        return Err(24);
    }
    Ok(led(octets))
}

/// Octets behind their length. The length of octets that no room holds is cut,
/// but such octets are never put.
fn led(octets: &[u8]) -> Vec<u8> {
    [&(octets.len() as u32).to_be_bytes()[..], octets].concat()
}
