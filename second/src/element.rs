//! One element at a place, over a book that was found valid.

use crate::book::Book;
use crate::end::{self, End};
use crate::layout::{self, Layout};
use crate::refusal::{refuse, Answer};
use crate::row::{self, Row};
use crate::walk::Walk;

#[derive(Clone, Copy, Debug, PartialEq, Eq)]
pub enum Kind {
    Layout,
    Row,
    End,
}

impl Kind {
    pub fn of(number: u32) -> Option<Kind> {
        match number {
            1 => Some(Kind::Layout),
            2 => Some(Kind::Row),
            3 => Some(Kind::End),
            _ => None,
        }
    }

    pub fn number(self) -> u32 {
        self as u32 + 1
    }
}

#[derive(Clone, Debug, PartialEq, Eq)]
pub enum Element<'a> {
    Layout { layout: Layout<'a>, new: bool },
    Row(Row<'a>),
    End(End),
}

/// The kind at a place: its own 1, then 7.
pub fn kind(document: &[u8], place: u64) -> Answer<Kind> {
    match Kind::of(Walk::new(document, place).number()?) {
        Some(kind) => Ok(kind),
        None => refuse(7, place),
    }
}

/// The element at a place and the place behind it.
pub fn read<'a>(document: &'a [u8], place: u64, rows: u64, book: &Book) -> Answer<(Element<'a>, u64)> {
    let kind = kind(document, place)?;
    let behind = place + 4;
    match kind {
        Kind::Layout => {
            let CheckedLayout { layout, new, next } = checked_layout(document, behind, book)?;
            Ok((Element::Layout { layout, new }, next))
        }
        Kind::Row => row::read(document, behind, book).map(|(row, next)| (Element::Row(row), next)),
        Kind::End => end::read(document, behind, rows).map(|(end, next)| (Element::End(end), next)),
    }
}

/// A layout that its book admits, with the place behind it.
pub struct CheckedLayout<'a> {
    pub layout: Layout<'a>,
    pub new: bool,
    pub next: u64,
}

/// Reads a layout from its number; once its last type is read, 10 and then 11.
pub fn checked_layout<'a>(document: &'a [u8], place: u64, book: &Book) -> Answer<CheckedLayout<'a>> {
    let (layout, next) = layout::read(document, place)?;
    match book.admits(layout.number, layout.octets) {
        Ok(new) => Ok(CheckedLayout { layout, new, next }),
        Err(number) => refuse(number, place),
    }
}
