//! Documents of which one string is not UTF-8, and that are else as they were.

use super::random::Random;
use super::text;
use crate::basic::Basic;
use crate::meaning::{Document, Header, Item, Layout, Row};

/// The document with a bad string, in its header, in a layout or, where rows
/// have strings, likelier in one of them.
pub fn spoiled(random: &mut Random, document: &Document) -> Document {
    let mut document = document.clone();
    let mut kinds = [of_header(&mut document.header), vec![], vec![]];
    for item in &mut document.items {
        match item {
            Item::Layout(layout) => kinds[1].extend(of_layout(layout)),
            Item::Row(row) => kinds[2].extend(of_row(row)),
        }
    }
    let filled: Vec<usize> = [0, 1, 2, 2].into_iter().filter(|kind| !kinds[*kind].is_empty()).collect();
    let kind = random.pick(&filled);
    spoil_one(random, &mut kinds[kind]);
    document
}

/// The layout with a bad name, its own or an attribute's.
pub fn badly_named(random: &mut Random, layout: &Layout) -> Layout {
    let mut layout = layout.clone();
    spoil_one(random, &mut of_layout(&mut layout));
    layout
}

fn spoil_one(random: &mut Random, strings: &mut [&mut Vec<u8>]) {
    let index = random.below(strings.len());
    *strings[index] = text::bad(random);
}

fn of_header(header: &mut Header) -> Vec<&mut Vec<u8>> {
    let mut strings = vec![&mut header.recorder, &mut header.namespace];
    for namespace in &mut header.namespaces {
        strings.extend([&mut namespace.uri, &mut namespace.short]);
    }
    strings.extend(&mut header.services);
    strings
}

fn of_layout(layout: &mut Layout) -> Vec<&mut Vec<u8>> {
    let mut strings = vec![&mut layout.name];
    strings.extend(layout.attributes.iter_mut().map(|attribute| &mut attribute.name));
    strings
}

fn of_row(row: &mut Row) -> Vec<&mut Vec<u8>> {
    let strings = row.values.iter_mut().filter(|value| value.basic == Basic::String);
    strings.map(|value| &mut value.octets).collect()
}
