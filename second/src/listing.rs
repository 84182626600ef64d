//! The listing program as a function from octets to text.

use crate::basic::Basic;
use crate::element::Element;
use crate::header;
use crate::hex;
use crate::limits;
use crate::reading::Reading;
use crate::refusal::Answer;
use crate::time;
use crate::value::Value;

pub fn list(input: &[u8]) -> String {
    if input.len() > limits::LISTING {
        return "input too long\n".to_string();
    }
    let mut text = String::new();
    if let Err(refusal) = lines(input, &mut text) {
        text += &format!("refused {} {}\n", refusal.number, refusal.place);
    }
    text
}

/// Adds the lines of the header and of every element before a refusal.
fn lines(document: &[u8], text: &mut String) -> Answer<()> {
    let header = header::read(document)?;
    *text += &format!("document {} {}\n", header::VERSION, time::text(header.start));
    let mut reading = Reading::from(document, header.next);
    loop {
        let place = reading.place;
        let element = reading.element()?;
        *text += &line(place, &element);
        if let Element::End(_) = element {
            return Ok(());
        }
    }
}

fn line(place: u64, element: &Element) -> String {
    match element {
        Element::Layout { layout, .. } => {
            let number = layout.number as i32;
            let name = string(layout.name);
            format!("layout {place} {number} {name} {}\n", layout.attributes.len())
        }
        Element::Row(row) => {
            let values: String = row.values.iter().map(|value| format!(" {}", word(value))).collect();
            format!("row {place} {}{values}\n", row.number as i32)
        }
        Element::End(end) => format!("end {place} {} {}\n", end.count, time::text(end.time)),
    }
}

fn word(value: &Value) -> String {
    match value.basic {
        Basic::String => string(value.octets),
        Basic::HexBinary | Basic::Float | Basic::Double => format!("x{}", hex::digits(value.octets)),
        _ => value.number().to_string(),
    }
}

/// "=" and the octets, escaped where they would not be one visible character.
fn string(octets: &[u8]) -> String {
    let mut text = "=".to_string();
    for octet in octets {
        match octet {
            b'%' => text += "%25",
            0x21..=0x7e => text.push(char::from(*octet)),
            _ => text += &format!("%{octet:02X}"),
        }
    }
    text
}
