//! The calls that write a document, as commands for the probe.

use crate::command::{Argument, Command};
use crate::meaning::{Document, Header, Item, Layout, Row, Value};

/// Every field of the document in image order.
pub fn script(document: &Document) -> Vec<Command> {
    let mut calls = header(&document.header);
    for item in &document.items {
        calls.extend(match item {
            Item::Layout(layout) => open_layout(layout),
            Item::Row(row) => open_row(row),
        });
    }
    calls.push(Command::numbers(b'e', &[document.end_time as u64]));
    calls
}

fn header(header: &Header) -> Vec<Command> {
    let mut calls = vec![
        Command::octets(b'1', &header.recorder),
        Command::numbers(b'2', &[header.start as u64]),
        Command::octets(b'3', &header.namespace),
        Command::numbers(b'4', &[header.namespaces.len() as u64]),
    ];
    for namespace in &header.namespaces {
        calls.push(Command::octets(b'5', &namespace.uri));
        calls.push(Command::octets(b'6', &namespace.short));
    }
    calls.push(Command::numbers(b'7', &[header.services.len() as u64]));
    calls.extend(header.services.iter().map(|service| Command::octets(b'8', service)));
    calls.push(Command::octets(b'9', &header.id));
    calls
}

/// The calls that write one layout.
pub fn open_layout(layout: &Layout) -> Vec<Command> {
    let mut calls = vec![
        Command::numbers(b'k', &[layout.number.into()]),
        Command::octets(b'm', &layout.name),
        Command::numbers(b'c', &[layout.attributes.len() as u64]),
    ];
    for attribute in &layout.attributes {
        calls.push(Command::octets(b'n', &attribute.name));
        calls.push(Command::numbers(b'u', &[attribute.kind.into()]));
    }
    calls
}

fn open_row(row: &Row) -> Vec<Command> {
    let mut calls = vec![Command::numbers(b'o', &[row.number.into(), row.stated.into()])];
    calls.extend(row.values.iter().map(value));
    calls.push(Command::new(b'x'));
    calls
}

fn value(value: &Value) -> Command {
    let (bits, octets) = match value.basic.width() {
        Some(_) => (value.octets.iter().fold(0, |sum, octet| sum << 8 | u64::from(*octet)), &[][..]),
        None => (0, &value.octets[..]),
    };
    Command::numbers(b'v', &[value.basic.low().into(), bits]).and(Argument::Octets(octets.to_vec()))
}
