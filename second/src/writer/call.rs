//! The nineteen calls of the writer.

use super::state::Turn;
use crate::basic::Basic;

#[derive(Clone, Copy, Debug, PartialEq, Eq)]
pub enum Call<'a> {
    Recorder(&'a [u8]),
    StartTime(i64),
    DefaultNamespace(&'a [u8]),
    NamespaceCount(u32),
    Uri(&'a [u8]),
    ShortName(&'a [u8]),
    ServiceCount(u32),
    Service(&'a [u8]),
    DocumentId(&'a [u8]),
    OpenLayout(u32),
    TypeName(&'a [u8]),
    AttributeCount(u32),
    AttributeName(&'a [u8]),
    AttributeType(u32),
    OpenRow { number: u32, stated: bool },
    Value(Given<'a>),
    CloseRow,
    GiveUp,
    Finish(i64),
}

/// A value as it is given: for types of a width the low octets of the bits,
/// for the others the octets.
#[derive(Clone, Copy, Debug, PartialEq, Eq)]
pub struct Given<'a> {
    pub basic: Basic,
    pub bits: u64,
    pub octets: &'a [u8],
}

impl Call<'_> {
    pub fn is_in_turn(&self, turn: Turn) -> bool {
        let expected = match self {
            Call::Recorder(_) => Turn::Recorder,
            Call::StartTime(_) => Turn::StartTime,
            Call::DefaultNamespace(_) => Turn::DefaultNamespace,
            Call::NamespaceCount(_) => Turn::NamespaceCount,
            Call::Uri(_) => Turn::Uri,
            Call::ShortName(_) => Turn::ShortName,
            Call::ServiceCount(_) => Turn::ServiceCount,
            Call::Service(_) => Turn::Service,
            Call::DocumentId(_) => Turn::DocumentId,
            Call::OpenLayout(_) | Call::OpenRow { .. } | Call::Finish(_) => Turn::Element,
            Call::TypeName(_) => Turn::TypeName,
            Call::AttributeCount(_) => Turn::AttributeCount,
            Call::AttributeName(_) => Turn::AttributeName,
            Call::AttributeType(_) => Turn::AttributeType,
            Call::Value(_) | Call::CloseRow => Turn::Value,
            Call::GiveUp => return is_open(turn),
        };
        turn == expected
    }
}

/// Whether a layout or a row is open, which can be given up.
fn is_open(turn: Turn) -> bool {
    matches!(
        turn,
        Turn::TypeName | Turn::AttributeCount | Turn::AttributeName | Turn::AttributeType | Turn::Value
    )
}
