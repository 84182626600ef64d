//! Meanings of documents, of every shape that the limits allow and a few
//! shapes just beyond them.

use super::field;
use super::random::Random;
use super::text;
use crate::basic::Basic;
use crate::image::{book_octets, image};
use crate::limits;
use crate::meaning::{Attribute, Document, Header, Item, Layout, Namespace, Row};

pub fn document(random: &mut Random) -> Document {
    let most = limits::LISTED as usize;
    match random.below(40) {
        0 => Document { items: vec![], ..small(random) },
        1 | 2 => {
            let count = random.pick(&[63, 64, 64, 65]);
            let layouts = (0..count).map(|number| layout(random, number * 0x0100_0001, 2)).collect();
            of_layouts(random, layouts)
        }
        3 => {
            let size = random.pick(&[limits::BOOK - 1, limits::BOOK, limits::BOOK, limits::BOOK + 1]);
            let layouts = filling(random, size);
            of_layouts(random, layouts)
        }
        4 | 5 => wide(random),
        6 => {
            let namespaces = random.pick(&[0, most, most + 1]);
            let services = random.pick(&[0, most, most + 1]);
            Document { header: header(random, namespaces, services), ..small(random) }
        }
        7 if random.one_in(3) => {
            let size = random.pick(&[30_000, 65_535, 65_536, 65_537, 65_599, 65_600]);
            padded(small(random), size)
        }
        8 if random.one_in(3) => many_rows(random),
        _ => small(random),
    }
}

/// A document with the most of everything: lists, attributes and layouts.
pub fn fullest(random: &mut Random) -> Document {
    let most = limits::LISTED as usize;
    let wide = layout(random, 0, limits::ATTRIBUTES as usize);
    let narrow = |number| Layout { number, name: vec![], attributes: vec![] };
    let layouts = (1..limits::LAYOUTS as u32).map(|number| Item::Layout(narrow(number)));
    let mut items = vec![Item::Layout(wide.clone()), Item::Row(row(random, &wide))];
    items.extend(layouts);
    items.push(Item::Row(row(random, &wide)));
    Document { header: header(random, most, most), items, end_time: field::time(random) }
}

/// A few layouts and rows of them, in any order that reads well.
pub fn small(random: &mut Random) -> Document {
    let namespaces = random.below(3);
    let services = random.below(3);
    let header = header(random, namespaces, services);
    let most = random.pick(&[3, 6, 6, 10, 20]);
    let mut known: Vec<Layout> = Vec::new();
    let mut items = Vec::new();
    for _ in 0..random.between(1, most) {
        items.push(item(random, &mut known));
    }
    Document { header, items, end_time: field::time(random) }
}

/// A new layout, one of the known ones again, or a row of one.
fn item(random: &mut Random, known: &mut Vec<Layout>) -> Item {
    if known.is_empty() || random.one_in(5) {
        let number = field::number(random);
        if known.iter().all(|layout| layout.number != number) {
            let attributes = random.pick(&[0, 1, 2, 3, 4, 5, 13]);
            known.push(layout(random, number, attributes));
            return Item::Layout(known[known.len() - 1].clone());
        }
    }
    let chosen = random.pick(known);
    match random.below(8) {
        0 => Item::Layout(chosen),
        _ => Item::Row(row(random, &chosen)),
    }
}

fn header(random: &mut Random, namespaces: usize, services: usize) -> Header {
    let mut id = [0; limits::ID];
    if !random.one_in(4) {
        id.copy_from_slice(&random.octets(limits::ID));
    }
    Header {
        recorder: text::string(random),
        start: field::time(random),
        namespace: text::string(random),
        namespaces: (0..namespaces)
            .map(|_| Namespace { uri: text::string(random), short: text::string(random) })
            .collect(),
        services: (0..services).map(|_| text::string(random)).collect(),
        id,
    }
}

pub fn layout(random: &mut Random, number: u32, attributes: usize) -> Layout {
    let attribute = |random: &mut Random| Attribute { name: text::string(random), kind: field::kind(random) };
    Layout {
        number,
        name: text::string(random),
        attributes: (0..attributes).map(|_| attribute(random)).collect(),
    }
}

pub fn row(random: &mut Random, layout: &Layout) -> Row {
    let value = |attribute: &Attribute| {
        let basic = Basic::of(attribute.kind as u8).unwrap_or(Basic::String);
        field::value(random, basic)
    };
    let values = layout.attributes.iter().map(value).collect();
    Row { number: layout.number, stated: random.one_in(2), values }
}

/// The layouts one after another, then some rows and some layouts again.
fn of_layouts(random: &mut Random, layouts: Vec<Layout>) -> Document {
    let mut items: Vec<Item> = layouts.iter().cloned().map(Item::Layout).collect();
    for _ in 0..random.below(5) {
        let chosen = random.pick(&layouts);
        items.push(match random.below(3) {
            0 => Item::Layout(chosen),
            _ => Item::Row(row(random, &chosen)),
        });
    }
    Document { header: header(random, 0, 0), items, end_time: field::time(random) }
}

/// Different layouts that together take exactly so many octets of a book.
pub fn filling(random: &mut Random, size: usize) -> Vec<Layout> {
    let count = random.pick(&[1, 2, 7, 63, 64]);
    let mut layouts: Vec<Layout> = (0..count).map(|number| layout(random, number, 1)).collect();
    let taken: usize = layouts.iter().map(|layout| book_octets(layout).len()).sum();
    let left = size.saturating_sub(taken);
    for layout in &mut layouts {
        layout.name.extend(vec![b'-'; left / count as usize]);
    }
    layouts[0].name.extend(vec![b'+'; left % count as usize]);
    layouts
}

/// Layouts with about as many attributes as there may be.
fn wide(random: &mut Random) -> Document {
    let attributes = random.pick(&[63, 64, 64, 65]);
    let layouts = vec![layout(random, 1, attributes), layout(random, 2, attributes)];
    of_layouts(random, layouts)
}

/// So many rows that the image is some thousand octets long.
fn many_rows(random: &mut Random) -> Document {
    let attributes = random.pick(&[0, 1, 3]);
    let layout = layout(random, 5, attributes);
    let mut items = vec![Item::Layout(layout.clone())];
    while items.len() < 400 {
        items.push(Item::Row(row(random, &layout)));
    }
    Document { header: header(random, 1, 1), items, end_time: field::time(random) }
}

/// The document with a recorder so long that its image has the size.
pub fn padded(mut document: Document, size: usize) -> Document {
    let missing = size.saturating_sub(image(&document).octets.len());
    document.header.recorder.extend(vec![b'.'; missing]);
    document
}
