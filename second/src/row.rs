//! A row behind its kind.

use crate::book::Book;
use crate::layout::Layout;
use crate::refusal::{refuse, Answer, Refusal};
use crate::value::Value;
use crate::walk::Walk;

pub const UNSTATED: u32 = 0xffff_ffff;

#[derive(Clone, Debug, PartialEq, Eq)]
pub struct Row<'a> {
    pub number: u32,
    pub stated: bool,
    pub values: Vec<Value<'a>>,
}

/// Reads a row from its number; answers the place behind it too.
pub fn read<'a>(document: &'a [u8], place: u64, book: &Book) -> Answer<(Row<'a>, u64)> {
    let mut walk = Walk::new(document, place);
    let number = walk.number()?;
    let Some(layout) = book.find(number) else {
        return refuse(12, place);
    };
    let at_length = walk.place();
    let length = walk.number()?;
    let stated = length != UNSTATED;
    let (values, next) = if stated {
        stated_values(document, &walk, at_length, length, layout)?
    } else {
        let values = values(&mut walk, layout)?;
        (values, walk.place())
    };
    Ok((Row { number, stated, values }, next))
}

/// The values inside a stated length, which they must fill exactly.
fn stated_values<'a>(
    document: &'a [u8],
    walk: &Walk,
    at_length: u64,
    length: u32,
    layout: &Layout,
) -> Answer<(Vec<Value<'a>>, u64)> {
    if u64::from(length) > walk.left() {
        return refuse(1, at_length);
    }
    let end = walk.place() + u64::from(length);
    let mut inside = Walk::new(&document[..end as usize], walk.place());
    let values = values(&mut inside, layout).map_err(|fault| match fault.number {
        1 => Refusal { number: 13, place: at_length },
        _ => fault,
    })?;
    if inside.left() > 0 {
        return refuse(13, at_length);
    }
    Ok((values, end))
}

fn values<'a>(walk: &mut Walk<'a>, layout: &Layout) -> Answer<Vec<Value<'a>>> {
    layout.attributes.iter().map(|attribute| Value::read(walk, attribute.kind.basic)).collect()
}
