//! The header: everything before the first element.

use crate::limits;
use crate::refusal::{refuse, Answer};
use crate::walk::Walk;

pub const VERSION: u32 = 4;
pub const NO_ELEMENT_COUNT: [u8; 4] = [0xff; 4];

/// A listed namespace.
#[derive(Clone, Copy, Debug, PartialEq, Eq)]
pub struct Namespace<'a> {
    pub uri: &'a [u8],
    pub short: &'a [u8],
}

/// A list of the header, with the place of its count.
#[derive(Clone, Debug, PartialEq, Eq)]
pub struct List<T> {
    pub place: u64,
    pub items: Vec<T>,
}

#[derive(Clone, Debug, PartialEq, Eq)]
pub struct Header<'a> {
    pub recorder: &'a [u8],
    pub start: i64,
    pub namespace: &'a [u8],
    pub namespaces: List<Namespace<'a>>,
    pub services: List<&'a [u8]>,
    pub id: &'a [u8],
    /// The place behind the header.
    pub next: u64,
}

/// Refusal 2, which comes before everything else about a document.
pub fn within_limit(document: &[u8]) -> Answer<()> {
    if document.len() > limits::DOCUMENT {
        return refuse(2, 0);
    }
    Ok(())
}

pub fn read(document: &[u8]) -> Answer<Header<'_>> {
    within_limit(document)?;
    let mut walk = Walk::new(document, 0);
    if walk.number()? != VERSION {
        return refuse(3, 0);
    }
    let recorder = walk.string()?;
    let start = walk.time()?;
    let namespace = walk.string()?;
    let namespaces = list(&mut walk, namespace_pair)?;
    let services = list(&mut walk, Walk::string)?;
    let id = document_id(&mut walk)?;
    no_element_count(&mut walk)?;
    Ok(Header { recorder, start, namespace, namespaces, services, id, next: walk.place() })
}

fn list<'a, T>(walk: &mut Walk<'a>, item: impl Fn(&mut Walk<'a>) -> Answer<T>) -> Answer<List<T>> {
    let place = walk.place();
    let count = walk.count(limits::LISTED)?;
    let items = (0..count).map(|_| item(walk)).collect::<Answer<Vec<T>>>()?;
    Ok(List { place, items })
}

fn namespace_pair<'a>(walk: &mut Walk<'a>) -> Answer<Namespace<'a>> {
    let uri = walk.string()?;
    let short = walk.string()?;
    Ok(Namespace { uri, short })
}

/// A wrong length is 5 whether or not its octets are there.
fn document_id<'a>(walk: &mut Walk<'a>) -> Answer<&'a [u8]> {
    let place = walk.place();
    if walk.number()? as usize != limits::ID {
        return refuse(5, place);
    }
    walk.take(limits::ID as u64).or_else(|_| refuse(1, place))
}

fn no_element_count(walk: &mut Walk) -> Answer<()> {
    let place = walk.place();
    if walk.take(4)? != NO_ELEMENT_COUNT {
        return refuse(6, place);
    }
    Ok(())
}
