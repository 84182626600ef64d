//! A layout from its number to its last type, as documents and books hold it.

use crate::basic::Type;
use crate::limits;
use crate::refusal::{refuse, Answer};
use crate::walk::Walk;

#[derive(Clone, Copy, Debug, PartialEq, Eq)]
pub struct Attribute<'a> {
    pub name: &'a [u8],
    pub kind: Type,
}

#[derive(Clone, Debug, PartialEq, Eq)]
pub struct Layout<'a> {
    pub number: u32,
    pub name: &'a [u8],
    pub attributes: Vec<Attribute<'a>>,
    /// The layout's octets; two layouts are equal where these are.
    pub octets: &'a [u8],
}

/// Reads the layout at a place, with 1, 4, 8, 9 and 24 as its fields are
/// met; answers the place behind it too.
pub fn read(octets: &[u8], place: u64) -> Answer<(Layout<'_>, u64)> {
    let mut walk = Walk::new(octets, place);
    let number = walk.number()?;
    let name = walk.string()?;
    let count = walk.count(limits::ATTRIBUTES)?;
    let attributes = (0..count).map(|_| attribute(&mut walk)).collect::<Answer<Vec<_>>>()?;
    let next = walk.place();
    let octets = &octets[place as usize..next as usize];
    Ok((Layout { number, name, attributes, octets }, next))
}

fn attribute<'a>(walk: &mut Walk<'a>) -> Answer<Attribute<'a>> {
    let name = walk.string()?;
    let place = walk.place();
    match Type::of(walk.number()?) {
        Ok(kind) => Ok(Attribute { name, kind }),
        Err(number) => refuse(number, place),
    }
}
