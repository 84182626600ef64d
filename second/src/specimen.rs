//! The specimen document of the scope, its changes, and the cases that
//! the scope only wants run.

use crate::basic::Basic;
use crate::image::image;
use crate::meaning::{Attribute, Document, Header, Item, Layout, Row, Value};

#[rustfmt::skip]
pub const SPECIMEN: [u8; 137] = [
    0, 0, 0, 4, 0, 0, 0, 0,
    0, 0, 0, 0, 0, 1, 0x51, 0x80,
    0, 0, 0, 0, 0, 0, 0, 0, 0, 0, 0, 0,
    0, 0, 0, 16, 0, 0, 0, 0, 0, 0, 0, 0, 0, 0, 0, 0, 0, 0, 0, 0,
    0xff, 0xff, 0xff, 0xff,
    0, 0, 0, 1, 0, 0, 0, 7, 0, 0, 0, 1, b'A', 0, 0, 0, 2,
    0, 0, 0, 1, b'u', 0, 0, 0, 0x22, 0, 0, 0, 1, b'd', 0, 0, 0, 0x2a,
    0, 0, 0, 2, 0, 0, 0, 7, 0, 0, 0, 5, 0, 0, 0, 10, 0xfe,
    0, 0, 0, 2, 0, 0, 0, 7, 0xff, 0xff, 0xff, 0xff, 0, 0, 0, 0, 0x7f,
    0, 0, 0, 3, 0, 0, 0, 2, 0, 0, 0, 0, 0, 1, 0x51, 0x81,
];

/// What the specimen means.
pub fn meaning() -> Document {
    let attribute = |name: &[u8], kind| Attribute { name: name.to_vec(), kind };
    let attributes = vec![attribute(b"u", 0x22), attribute(b"d", 0x2a)];
    let layout = Layout { number: 7, name: b"A".to_vec(), attributes };
    let row = |stated, u, d: i8| {
        let values = vec![Value::number(Basic::UnsignedInt, u), Value::number(Basic::Byte, d as u64)];
        Item::Row(Row { number: 7, stated, values })
    };
    Document {
        header: Header { start: 86_400, ..Header::default() },
        items: vec![Item::Layout(layout), row(true, 10, -2), row(false, 0, 127)],
        end_time: 86_401,
    }
}

/// A document with the answer that its whole check must give: the rows, or a
/// refusal's number and place.
#[derive(Clone)]
pub struct FixedCase {
    pub name: &'static str,
    pub document: Vec<u8>,
    pub outcome: Result<u64, (u8, u64)>,
}

/// Every document that the scope lists, by change or by description.
pub fn fixed_cases() -> Vec<FixedCase> {
    let case = |name, document, outcome| FixedCase { name, document, outcome };
    vec![
        case("unchanged", SPECIMEN.to_vec(), Ok(2)),
        case("empty input", vec![], Err((1, 0))),
        case("version 3", with(0, &[0, 0, 0, 3]), Err((3, 0))),
        case("end count 3", with(125, &[0, 0, 0, 3]), Err((15, 125))),
        case("one octet more", [&SPECIMEN[..], &[0]].concat(), Err((16, 137))),
        case("first 136 octets", SPECIMEN[..136].to_vec(), Err((1, 129))),
        case("row number 8", with(91, &[0, 0, 0, 8]), Err((12, 91))),
        case("row length 6", with(95, &[0, 0, 0, 6]), Err((13, 95))),
        case("row length 4", with(95, &[0, 0, 0, 4]), Err((13, 95))),
        case("type 00000020", with(74, &[0, 0, 0, 0x20]), Err((8, 74))),
        case("type 80000022", with(74, &[0x80, 0, 0, 0x22]), Err((9, 74))),
        case("type 00000922", with(74, &[0, 0, 9, 0x22]), Ok(2)),
        case("short FFFE", shorts(), Ok(2)),
        case("header and end alone", of_layouts(vec![]), Ok(0)),
        case("64 layouts", of_layouts(small_layouts(64)), Ok(0)),
        case("65 layouts", of_layouts(small_layouts(65)), Err((11, 52 + 64 * 16 + 4))),
        case("book of 32768 octets", of_layouts(filling_layouts(32_768)), Ok(0)),
        case("book of 32769 octets", of_layouts(filling_layouts(32_769)), Err((11, 52 + 16_388 + 4))),
    ]
}

/// The specimen with other octets at a place.
pub fn with(place: usize, octets: &[u8]) -> Vec<u8> {
    let mut document = SPECIMEN.to_vec();
    document[place..place + octets.len()].copy_from_slice(octets);
    document
}

/// The specimen with "d" as a short and the values FFFE and 007F.
fn shorts() -> Vec<u8> {
    let changed = with(83, &[0, 0, 0, 0x2c]);
    let row = [&changed[87..95], &[0, 0, 0, 6], &changed[99..103], &[0xff, 0xfe]].concat();
    [&changed[..87], &row, &changed[104..120], &[0, 0x7f], &changed[121..]].concat()
}

fn of_layouts(layouts: Vec<Layout>) -> Vec<u8> {
    let items = layouts.into_iter().map(Item::Layout).collect();
    image(&Document { header: Header::default(), items, end_time: 0 }).octets
}

/// Layouts without name or attributes, 12 octets each in a book.
fn small_layouts(count: u32) -> Vec<Layout> {
    (0..count).map(|number| Layout { number, name: vec![], attributes: vec![] }).collect()
}

/// Two layouts that fill so many octets of a book, 16,384 by the first.
fn filling_layouts(size: usize) -> Vec<Layout> {
    let layout = |number, size: usize| Layout { number, name: vec![b'n'; size - 12], attributes: vec![] };
    vec![layout(1, 16_384), layout(2, size - 16_384)]
}
