//! The book: the layouts known at some place of a document.

use crate::layout::{self, Layout};
use crate::limits;

/// The layouts of a book in their order. They may stand in a lent book or,
/// for a reading from the first octet, in the document itself.
#[derive(Clone, Debug, Default)]
pub struct Book<'a> {
    layouts: Vec<Layout<'a>>,
    used: usize,
}

impl<'a> Book<'a> {
    /// The book that the used octets of a lent one hold; none for every cause
    /// of 17 that lies in the book.
    pub fn lent(octets: &'a [u8], used: u64) -> Option<Book<'a>> {
        if octets.len() < limits::BOOK || used > limits::BOOK as u64 {
            return None;
        }
        let octets = &octets[..used as usize];
        let mut book = Book::default();
        while book.used < octets.len() {
            let (layout, _) = layout::read(octets, book.used as u64).ok()?;
            if book.find(layout.number).is_some() || !book.has_room(layout.octets.len()) {
                return None;
            }
            book.add(layout);
        }
        Some(book)
    }

    pub fn used(&self) -> usize {
        self.used
    }

    pub fn layouts(&self) -> &[Layout<'a>] {
        &self.layouts
    }

    pub fn find(&self, number: u32) -> Option<&Layout<'a>> {
        self.layouts.iter().find(|layout| layout.number == number)
    }

    /// Whether these octets of a layout with this number are new here, or the
    /// number of their refusal, 10 or 11.
    pub fn admits(&self, number: u32, octets: &[u8]) -> Result<bool, u8> {
        match self.find(number) {
            Some(known) if known.octets == octets => Ok(false),
            Some(_) => Err(10),
            None if self.has_room(octets.len()) => Ok(true),
            None => Err(11),
        }
    }

    /// Takes a layout that was found to be new.
    pub fn add(&mut self, layout: Layout<'a>) {
        self.used += layout.octets.len();
        self.layouts.push(layout);
    }

    fn has_room(&self, size: usize) -> bool {
        self.layouts.len() < limits::LAYOUTS && size <= limits::BOOK - self.used
    }
}
