//! A reading from the first octet: elements one after another, over a book
//! that stands in the document itself.

use crate::book::Book;
use crate::element::{self, Element};
use crate::refusal::Answer;

pub struct Reading<'a> {
    document: &'a [u8],
    book: Book<'a>,
    pub place: u64,
    pub rows: u64,
}

impl<'a> Reading<'a> {
    /// A reading whose next element stands at a place, usually the one that
    /// the header answers.
    pub fn from(document: &'a [u8], place: u64) -> Self {
        Reading { document, book: Book::default(), place, rows: 0 }
    }

    pub fn book(&self) -> &Book<'a> {
        &self.book
    }

    /// The next element; a refusal leaves the reading where it was.
    pub fn element(&mut self) -> Answer<Element<'a>> {
        let (element, next) = element::read(self.document, self.place, self.rows, &self.book)?;
        match &element {
            Element::Layout { layout, new: true } => self.book.add(layout.clone()),
            Element::Row(_) => self.rows += 1,
            _ => {}
        }
        self.place = next;
        Ok(element)
    }
}
