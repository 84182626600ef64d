//! The documents of the examples folder, and its README.

use std::fs;
use std::io;
use std::path::Path;

use crate::basic::{Basic, BASICS};
use crate::image::image;
use crate::listing::list;
use crate::meaning::{Attribute, Document, Header, Item, Layout, Namespace, Row, Value};
use crate::specimen::{with, SPECIMEN};

pub struct Example {
    pub name: &'static str,
    pub shows: &'static str,
    pub document: Vec<u8>,
}

pub fn examples() -> Vec<Example> {
    let example = |name, shows, document| Example { name, shows, document };
    vec![
        example("specimen", "The specimen of the scope: one layout, a row of stated and a row of unstated length.", SPECIMEN.to_vec()),
        example("bare", "A header and an end with nothing between them, the shortest document there is.", bare()),
        example("every-type", "All thirteen types, with their lowest and highest values; the layout's number is negative when it is read as signed.", every_type()),
        example("odd-strings", "Strings that are empty, need escapes or have characters of more than one octet, lists in the header, a row without fields, times before 1970 and after 9999.", odd_strings()),
        example("repeated-layout", "A layout that stands twice, equal both times, and a second one that comes late: nothing of this is a fault.", repeated_layout()),
        example("june", "In June a layout gets one more attribute but keeps its number. The rows before it are listed, the new layout is refused.", june()),
        example("lacking-layout", "A row names a layout that the document does not have.", with(91, &[0, 0, 0, 8])),
        example("wrong-length", "A row states six octets where its layout takes five. Skipping by the stated length would lose the next element.", with(95, &[0, 0, 0, 6])),
        example("old-code", "A subscriber's name in UTF-8, and the same name in an old eight-bit code, where the last letter is the one octet E9. That is no UTF-8, and is refused at the length before the name.", old_code()),
        example("unstated-string", "The octets FF FF FF FF before a string. They are a length like any other, and the document ends before it does.", unstated_string()),
        example("cut", "The specimen without its last octet: the end time is cut short.", SPECIMEN[..136].to_vec()),
    ]
}

/// Writes every example and the README into a folder.
pub fn write(folder: &Path) -> io::Result<()> {
    fs::create_dir_all(folder)?;
    for example in examples() {
        fs::write(folder.join(file(&example)), &example.document)?;
    }
    fs::write(folder.join("README.md"), readme())
}

pub fn file(example: &Example) -> String {
    format!("{}.ipdr", example.name)
}

pub fn readme() -> String {
    let mut text = "# Examples\n\n\
        Documents to try a listing on, each with what it shows and its listing. \
        They and this page are written by `cargo run --offline -- examples ../examples` in `second/`.\n"
        .to_string();
    for example in examples() {
        let (file, size) = (file(&example), example.document.len());
        text += &format!("\n## {file}\n\n{} ({size} octets)\n\n", example.shows);
        text += &format!("```\n{}```\n", list(&example.document));
    }
    text
}

fn bare() -> Vec<u8> {
    let header = Header { start: 951_782_400_000, ..Header::default() };
    image(&Document { header, items: vec![], end_time: 951_868_799_999 }).octets
}

fn layout(number: u32, name: &str, attributes: &[(&str, u32)]) -> Layout {
    let attribute = |(name, kind): &(&str, u32)| Attribute { name: name.as_bytes().to_vec(), kind: *kind };
    Layout { number, name: name.as_bytes().to_vec(), attributes: attributes.iter().map(attribute).collect() }
}

fn row(number: u32, stated: bool, values: Vec<Value>) -> Item {
    Item::Row(Row { number, stated, values })
}

fn every_type() -> Vec<u8> {
    const NAMES: [&str; 13] = [
        "int",
        "unsignedInt",
        "long",
        "unsignedLong",
        "float",
        "double",
        "hexBinary",
        "string",
        "boolean",
        "byte",
        "unsignedByte",
        "short",
        "unsignedShort",
    ];
    let attributes: Vec<(&str, u32)> =
        NAMES.iter().zip(BASICS).map(|(name, (low, _))| (*name, low.into())).collect();
    let value = |basic: Basic, lowest: bool| match basic {
        Basic::HexBinary => Value::octets(basic, if lowest { &[] } else { &[0, 0xab, 0xff] }),
        Basic::String => Value::octets(basic, if lowest { b"" } else { b"100%" }),
        Basic::Boolean => Value::number(basic, u64::from(!lowest)),
        Basic::Float => Value::number(basic, if lowest { 0xff80_0000 } else { 0x7f80_0000 }),
        Basic::Double => Value::number(basic, if lowest { 0xfff0 << 48 } else { 0x7ff0 << 48 }),
        _ => Value::number(basic, bound(basic, lowest)),
    };
    let values = |lowest| BASICS.iter().map(|(_, basic)| value(*basic, lowest)).collect();
    let number = 0xffff_fff9;
    let items = vec![
        Item::Layout(layout(number, "EveryType", &attributes)),
        row(number, true, values(true)),
        row(number, false, values(false)),
    ];
    image(&Document { header: Header::default(), items, end_time: 1 }).octets
}

/// The lowest or highest number of a type, as the low octets of 64 bits.
fn bound(basic: Basic, lowest: bool) -> u64 {
    let bits = basic.width().map_or(0, |width| 8 * width as u32);
    match (basic.signed(), lowest) {
        (true, true) => 1 << (bits - 1),
        (true, false) => (1 << (bits - 1)) - 1,
        (false, true) => 0,
        (false, false) => u64::MAX,
    }
}

fn odd_strings() -> Vec<u8> {
    let header = Header {
        recorder: b"recorder 1".to_vec(),
        start: -1,
        namespace: b"urn:example:default".to_vec(),
        namespaces: vec![
            Namespace { uri: b"urn:example:a".to_vec(), short: b"a".to_vec() },
            Namespace { uri: vec![], short: vec![] },
        ],
        services: vec![b"service.xsd".to_vec()],
        id: *b"0123456789abcdef",
    };
    let text = |octets: &[u8]| Value::octets(Basic::String, octets);
    let items = vec![
        Item::Layout(layout(1, "", &[("", 0x28), ("", 0x28)])),
        row(1, true, vec![text(b""), text(b"=")]),
        row(1, true, vec![text(b"a b"), text("50% €\n\x7f~!".as_bytes())]),
        row(1, false, vec![text("\u{feff}\0Ж東😀".as_bytes()), text("\u{10ffff}".as_bytes())]),
        Item::Layout(layout(2, "no fields", &[])),
        row(2, true, vec![]),
        row(2, false, vec![]),
    ];
    image(&Document { header, items, end_time: 253_402_300_800_000 }).octets
}

/// Bytes in and out of one subscriber, as the next two examples count them.
fn usage(number: u32, subscriber: &str, bytes: &[u64]) -> Item {
    let mut values = vec![Value::octets(Basic::String, subscriber.as_bytes())];
    values.extend(bytes.iter().map(|bytes| Value::number(Basic::UnsignedLong, *bytes)));
    row(number, true, values)
}

fn repeated_layout() -> Vec<u8> {
    let first = || Item::Layout(layout(1, "Usage", &[("subscriber", 0x28), ("bytes", 0x24)]));
    let late = Item::Layout(layout(2, "Login", &[("subscriber", 0x28), ("granted", 0x29)]));
    let login = vec![Value::octets(Basic::String, b"bob"), Value::number(Basic::Boolean, 1)];
    let items = vec![
        first(),
        usage(1, "alice", &[1200]),
        first(),
        usage(1, "bob", &[7]),
        late,
        row(2, false, login),
        usage(1, "alice", &[3]),
    ];
    let header = Header { start: 1_000_000_000_000, ..Header::default() };
    image(&Document { header, items, end_time: 1_000_003_600_050 }).octets
}

fn june() -> Vec<u8> {
    let may = [("subscriber", 0x28), ("bytesIn", 0x24)];
    let june = [may[0], may[1], ("bytesOut", 0x24)];
    let items = vec![
        Item::Layout(layout(1, "Usage", &may)),
        usage(1, "alice", &[1200]),
        usage(1, "bob", &[7]),
        Item::Layout(layout(1, "Usage", &june)),
        usage(1, "alice", &[90, 4]),
    ];
    let header = Header { start: 1_117_497_600_007, ..Header::default() };
    image(&Document { header, items, end_time: 1_117_670_400_000 }).octets
}

fn old_code() -> Vec<u8> {
    let named = |name: &[u8]| {
        let values = vec![Value::octets(Basic::String, name), Value::number(Basic::UnsignedLong, 1200)];
        row(1, true, values)
    };
    let items = vec![
        Item::Layout(layout(1, "Usage", &[("subscriber", 0x28), ("bytes", 0x24)])),
        named("José".as_bytes()),
        named(b"Jos\xe9"),
    ];
    let header = Header { start: 1_117_497_600_000, ..Header::default() };
    image(&Document { header, items, end_time: 1_117_584_000_000 }).octets
}

fn unstated_string() -> Vec<u8> {
    let items = vec![
        Item::Layout(layout(1, "Note", &[("text", 0x28)])),
        row(1, false, vec![Value::octets(Basic::String, b"end")]),
    ];
    let good = image(&Document { header: Header::default(), items, end_time: 0 });
    let mut octets = good.octets;
    let value = good.starts[2] + 12;
    octets[value..value + 4].fill(0xff);
    octets
}
