//! What a document means, apart from any octets that hold it.

use crate::basic::Basic;

#[derive(Clone, Debug, PartialEq, Eq)]
pub struct Document {
    pub header: Header,
    pub items: Vec<Item>,
    pub end_time: i64,
}

#[derive(Clone, Debug, Default, PartialEq, Eq)]
pub struct Header {
    pub recorder: Vec<u8>,
    pub start: i64,
    pub namespace: Vec<u8>,
    pub namespaces: Vec<Namespace>,
    pub services: Vec<Vec<u8>>,
    pub id: [u8; 16],
}

#[derive(Clone, Debug, PartialEq, Eq)]
pub struct Namespace {
    pub uri: Vec<u8>,
    pub short: Vec<u8>,
}

#[derive(Clone, Debug, PartialEq, Eq)]
pub enum Item {
    Layout(Layout),
    Row(Row),
}

#[derive(Clone, Debug, PartialEq, Eq)]
pub struct Layout {
    pub number: u32,
    pub name: Vec<u8>,
    pub attributes: Vec<Attribute>,
}

#[derive(Clone, Debug, PartialEq, Eq)]
pub struct Attribute {
    pub name: Vec<u8>,
    pub kind: u32,
}

#[derive(Clone, Debug, PartialEq, Eq)]
pub struct Row {
    pub number: u32,
    pub stated: bool,
    pub values: Vec<Value>,
}

/// A value: a number's octets at its width, or the octets that a length leads.
#[derive(Clone, Debug, PartialEq, Eq)]
pub struct Value {
    pub basic: Basic,
    pub octets: Vec<u8>,
}

impl Value {
    /// A number of a type of some width, given by its low octets.
    pub fn number(basic: Basic, bits: u64) -> Value {
        let width = basic.width().unwrap_or(0);
        Value { basic, octets: bits.to_be_bytes()[8 - width..].to_vec() }
    }

    /// A hexBinary or a string.
    pub fn octets(basic: Basic, octets: &[u8]) -> Value {
        Value { basic, octets: octets.to_vec() }
    }
}

impl Document {
    pub fn rows(&self) -> usize {
        self.items.iter().filter(|item| matches!(item, Item::Row(_))).count()
    }

    /// The layouts that differ from all before them.
    pub fn layouts(&self) -> Vec<&Layout> {
        let mut found: Vec<&Layout> = Vec::new();
        for item in &self.items {
            match item {
                Item::Layout(layout) if !found.contains(&layout) => found.push(layout),
                _ => {}
            }
        }
        found
    }
}
