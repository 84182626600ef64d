//! The image of a meaning: its octets, with the places of its fields. The
//! limits are not looked at, nor whether strings are UTF-8, so meanings beyond
//! them have an image too.

use crate::basic::Basic;
use crate::element::Kind;
use crate::header::{NO_ELEMENT_COUNT, VERSION};
use crate::meaning::{Document, Header, Item, Layout, Row, Value};
use crate::row::UNSTATED;

#[derive(Clone, Copy, Debug, PartialEq, Eq)]
pub enum Mark {
    Version,
    /// Of a hexBinary.
    Length,
    /// Of what must be UTF-8.
    StringLength,
    Time,
    Count,
    IdLength,
    NoElementCount,
    Kind,
    Number,
    Type,
    RowLength,
    Boolean,
    EndCount,
}

#[derive(Clone, Debug, Default)]
pub struct Image {
    pub octets: Vec<u8>,
    /// The places of the fields that are not plain octets, in image order.
    pub marks: Vec<(usize, Mark)>,
    /// Where the header and each element begin, in image order.
    pub starts: Vec<usize>,
}

pub fn image(document: &Document) -> Image {
    let mut image = Image::default();
    image.header(&document.header);
    for item in &document.items {
        match item {
            Item::Layout(layout) => image.layout(layout),
            Item::Row(row) => image.row(row),
        }
    }
    image.begin(Kind::End);
    image.put_number(Mark::EndCount, document.rows() as u32);
    image.put_time(document.end_time);
    image
}

/// A layout as a book holds it.
pub fn book_octets(layout: &Layout) -> Vec<u8> {
    let mut image = Image::default();
    image.layout_fields(layout);
    image.octets
}

impl Image {
    /// The octets of the header and of each element, in image order.
    pub fn pieces(&self) -> Vec<Vec<u8>> {
        let ends = self.starts.iter().skip(1).copied().chain([self.octets.len()]);
        self.starts.iter().zip(ends).map(|(from, to)| self.octets[*from..to].to_vec()).collect()
    }

    fn header(&mut self, header: &Header) {
        self.starts.push(0);
        self.put_number(Mark::Version, VERSION);
        self.put_string(&header.recorder);
        self.put_time(header.start);
        self.put_string(&header.namespace);
        self.put_number(Mark::Count, header.namespaces.len() as u32);
        for namespace in &header.namespaces {
            self.put_string(&namespace.uri);
            self.put_string(&namespace.short);
        }
        self.put_number(Mark::Count, header.services.len() as u32);
        for service in &header.services {
            self.put_string(service);
        }
        self.put_number(Mark::IdLength, header.id.len() as u32);
        self.octets.extend(header.id);
        self.mark(Mark::NoElementCount);
        self.octets.extend(NO_ELEMENT_COUNT);
    }

    fn layout(&mut self, layout: &Layout) {
        self.begin(Kind::Layout);
        self.layout_fields(layout);
    }

    fn layout_fields(&mut self, layout: &Layout) {
        self.put_number(Mark::Number, layout.number);
        self.put_string(&layout.name);
        self.put_number(Mark::Count, layout.attributes.len() as u32);
        for attribute in &layout.attributes {
            self.put_string(&attribute.name);
            self.put_number(Mark::Type, attribute.kind);
        }
    }

    fn row(&mut self, row: &Row) {
        self.begin(Kind::Row);
        self.put_number(Mark::Number, row.number);
        let length: usize = row.values.iter().map(size).sum();
        self.put_number(Mark::RowLength, if row.stated { length as u32 } else { UNSTATED });
        for value in &row.values {
            self.value(value);
        }
    }

    fn value(&mut self, value: &Value) {
        match value.basic {
            Basic::HexBinary => self.put_led(Mark::Length, &value.octets),
            Basic::String => self.put_string(&value.octets),
            basic => {
                if basic == Basic::Boolean {
                    self.mark(Mark::Boolean);
                }
                self.octets.extend(&value.octets);
            }
        }
    }

    fn begin(&mut self, kind: Kind) {
        self.starts.push(self.octets.len());
        self.put_number(Mark::Kind, kind.number());
    }

    fn mark(&mut self, mark: Mark) {
        self.marks.push((self.octets.len(), mark));
    }

    fn put_number(&mut self, mark: Mark, number: u32) {
        self.mark(mark);
        self.octets.extend(number.to_be_bytes());
    }

    fn put_time(&mut self, time: i64) {
        self.mark(Mark::Time);
        self.octets.extend(time.to_be_bytes());
    }

    fn put_string(&mut self, octets: &[u8]) {
        self.put_led(Mark::StringLength, octets);
    }

    fn put_led(&mut self, mark: Mark, octets: &[u8]) {
        self.put_number(mark, octets.len() as u32);
        self.octets.extend(octets);
    }
}

fn size(value: &Value) -> usize {
    match value.basic.width() {
        Some(width) => width,
        None => 4 + value.octets.len(),
    }
}
