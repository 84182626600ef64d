//! The reading half of the probe.

use super::input::Input;
use super::reply::Reply;
use super::sum::sum;
use crate::element::Element;
use crate::header;
use crate::hex;
use crate::question::{self, Field, Inputs, Text};
use crate::refusal::{Answer, Refusal};
use crate::step::{step, Step};
use crate::whole::whole_check;

pub const MOST_BOOK: u64 = 40_000;

/// The document and the book lent from here on.
#[derive(Default)]
pub struct Reading {
    pub document: Vec<u8>,
    pub book: Vec<u8>,
}

impl Reading {
    /// The answer to one of the commands B, h, w, s, f, y, a and t.
    pub fn command(&mut self, letter: u8, input: &mut Input) -> Option<Reply> {
        let line = match letter {
            b'B' => {
                self.book = input.octets(MOST_BOOK)?.to_vec();
                return Some(Reply::Silent);
            }
            b'h' => self.header(),
            b'w' => self.whole(),
            b's' => self.step(input.number()?, input.number()?, input.number()?),
            b'f' => field(self.inputs(input)?.field(input.number()?)),
            b'y' => part(self.inputs(input)?.type_name(), |name| format!("name {}", hex::word(name))),
            b'a' => part(self.inputs(input)?.attribute(input.number()?), |attribute| {
                format!("attribute {:08x} {}", attribute.kind.bits, hex::word(attribute.name))
            }),
            b't' => {
                let text = which(input.number()?, input.number()?)?;
                part(question::text(&self.document, text), |part| format!("text {}", hex::word(part)))
            }
            _ => return None,
        };
        Some(Reply::Line(line))
    }

    pub fn header(&self) -> String {
        match header::read(&self.document) {
            Ok(header) => {
                let (namespaces, services) = (header.namespaces.items.len(), header.services.items.len());
                format!("header {} {namespaces} {services} {}", header.start, header.next)
            }
            Err(refusal) => refused(refusal),
        }
    }

    pub fn whole(&self) -> String {
        match whole_check(&self.document) {
            Ok(rows) => format!("whole {rows}"),
            Err(refusal) => refused(refusal),
        }
    }

    pub fn step(&mut self, at: u64, rows: u64, used: u64) -> String {
        let words = match step(&self.document, at, rows, &mut self.book, used) {
            Ok(step) => stepped(&step),
            Err(refusal) => refused(refusal),
        };
        format!("{words} {:016x}", sum(&self.book))
    }

    fn inputs(&self, input: &mut Input) -> Option<Inputs<'_, '_>> {
        let (place, rows, used) = (input.number()?, input.number()?, input.number()?);
        Some(Inputs { document: &self.document, place, rows, book: &self.book, used })
    }
}

fn stepped(step: &Step) -> String {
    let words = match &step.element {
        Element::Layout { layout, .. } => format!("layout {} {}", layout.number, layout.attributes.len()),
        Element::Row(row) => format!("row {} {} {}", row.number, u8::from(row.stated), row.values.len()),
        Element::End(end) => format!("end {} {}", end.count, end.time),
    };
    format!("{words} {} {} {}", step.next, step.rows, step.used)
}

pub fn refused(refusal: Refusal) -> String {
    format!("refused {} {}", refusal.number, refusal.place)
}

/// A line that hands back one part, which is empty in a refusal.
fn part<T>(answer: Answer<T>, line: impl Fn(T) -> String) -> String {
    match answer {
        Ok(answer) => line(answer),
        Err(refusal) => format!("{} -", refused(refusal)),
    }
}

fn field(answer: Answer<Field>) -> String {
    let Field { name, kind, value } = match answer {
        Ok(field) => field,
        Err(refusal) => return format!("{} - -", refused(refusal)),
    };
    let (number, octets): (String, &[u8]) = match value.basic {
        basic if basic.width().is_none() => ("-".to_string(), value.octets),
        basic if basic.kept_as_bits() => (format!("x{}", hex::digits(value.octets)), &[]),
        _ => (value.number().to_string(), &[]),
    };
    format!("field {:08x} {number} {} {}", kind.bits, hex::word(name), hex::word(octets))
}

fn which(which: u64, n: u64) -> Option<Text> {
    Some(match which {
        0 => Text::Recorder,
        1 => Text::DefaultNamespace,
        2 => Text::NamespaceUri(n),
        3 => Text::NamespaceShort(n),
        4 => Text::Service(n),
        5 => Text::DocumentId,
        _ => return None,
    })
}
