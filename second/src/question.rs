//! Questions on a row, a layout and the header. An answer that is a refusal
//! carries no part, so a caller prints every part as empty.

use crate::basic::Type;
use crate::book::Book;
use crate::element::{self, Kind};
use crate::header::{self, List};
use crate::layout::{Attribute, Layout};
use crate::refusal::{refuse, Answer};
use crate::row::{self, Row};
use crate::step;
use crate::value::Value;

/// What a step is given, lent for asking only.
#[derive(Clone, Copy)]
pub struct Inputs<'d, 'b> {
    pub document: &'d [u8],
    pub place: u64,
    pub rows: u64,
    pub book: &'b [u8],
    pub used: u64,
}

/// A field of a row: its name stands in the book, its value in the document.
#[derive(Clone, Copy, Debug, PartialEq, Eq)]
pub struct Field<'d, 'b> {
    pub name: &'b [u8],
    pub kind: Type,
    pub value: Value<'d>,
}

impl<'d, 'b> Inputs<'d, 'b> {
    pub fn field(&self, n: u64) -> Answer<Field<'d, 'b>> {
        let book = self.book_at(Kind::Row)?;
        let (row, _) = row::read(self.document, self.place + 4, &book)?;
        match book.find(row.number).and_then(|layout| field(layout, &row, n)) {
            Some(field) => Ok(field),
            None => refuse(18, self.place),
        }
    }

    pub fn type_name(&self) -> Answer<&'d [u8]> {
        self.layout().map(|layout| layout.name)
    }

    pub fn attribute(&self, n: u64) -> Answer<Attribute<'d>> {
        match nth(&self.layout()?.attributes, n) {
            Some(attribute) => Ok(*attribute),
            None => refuse(18, self.place),
        }
    }

    fn layout(&self) -> Answer<Layout<'d>> {
        let book = self.book_at(Kind::Layout)?;
        element::checked_layout(self.document, self.place + 4, &book).map(|checked| checked.layout)
    }

    /// The book, where the element is of the kind asked about: at another
    /// kind nothing behind it is read.
    fn book_at(&self, asked: Kind) -> Answer<Book<'b>> {
        let book = step::check(self.document, self.rows, self.book, self.used)?;
        if element::kind(self.document, self.place)? != asked {
            return refuse(19, self.place);
        }
        Ok(book)
    }
}

fn field<'d, 'b>(layout: &Layout<'b>, row: &Row<'d>, n: u64) -> Option<Field<'d, 'b>> {
    let attribute = nth(&layout.attributes, n)?;
    let value = *nth(&row.values, n)?;
    Some(Field { name: attribute.name, kind: attribute.kind, value })
}

/// A string of the header, or string n of one of its lists.
#[derive(Clone, Copy, Debug, PartialEq, Eq)]
pub enum Text {
    Recorder,
    DefaultNamespace,
    NamespaceUri(u64),
    NamespaceShort(u64),
    Service(u64),
    DocumentId,
}

pub fn text(document: &[u8], text: Text) -> Answer<&[u8]> {
    let header = header::read(document)?;
    match text {
        Text::Recorder => Ok(header.recorder),
        Text::DefaultNamespace => Ok(header.namespace),
        Text::DocumentId => Ok(header.id),
        Text::NamespaceUri(n) => listed(&header.namespaces, n).map(|namespace| namespace.uri),
        Text::NamespaceShort(n) => listed(&header.namespaces, n).map(|namespace| namespace.short),
        Text::Service(n) => listed(&header.services, n),
    }
}

fn listed<T: Copy>(list: &List<T>, n: u64) -> Answer<T> {
    match nth(&list.items, n) {
        Some(item) => Ok(*item),
        None => refuse(18, list.place),
    }
}

fn nth<T>(items: &[T], n: u64) -> Option<&T> {
    items.get(usize::try_from(n).ok()?)
}
