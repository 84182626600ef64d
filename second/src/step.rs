//! One step: an element of a document over a lent book.

use crate::book::Book;
use crate::element::{self, Element};
use crate::header::within_limit;
use crate::limits;
use crate::refusal::{refuse, Answer};

#[derive(Clone, Debug, PartialEq, Eq)]
pub struct Step<'a> {
    pub element: Element<'a>,
    pub next: u64,
    pub rows: u64,
    pub used: u64,
}

/// The faults of what a step is lent: 2, then 17.
pub fn check<'b>(document: &[u8], rows: u64, book: &'b [u8], used: u64) -> Answer<Book<'b>> {
    within_limit(document)?;
    match Book::lent(book, used) {
        Some(book) if rows <= limits::ROWS => Ok(book),
        _ => refuse(17, 0),
    }
}

/// Reads the element at a place. A new layout is put behind the used octets
/// of the book; a refusal changes nothing.
pub fn step<'a>(document: &'a [u8], place: u64, rows: u64, book: &mut [u8], used: u64) -> Answer<Step<'a>> {
    let known = check(document, rows, book, used)?;
    let (element, next) = element::read(document, place, rows, &known)?;
    let mut step = Step { element, next, rows, used };
    match &step.element {
        Element::Layout { layout, new: true } => {
            let end = used as usize + layout.octets.len();
            book[used as usize..end].copy_from_slice(layout.octets);
            step.used = end as u64;
        }
        Element::Row(_) => step.rows += 1,
        _ => {}
    }
    Ok(step)
}
