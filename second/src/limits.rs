//! The limits of the scope, each under one name.

/// Octets of a document, and of the room a writer has.
pub const DOCUMENT: usize = 1_048_576;
/// Octets of a book that may be used; a lent book is at least that long.
pub const BOOK: usize = 32_768;
/// Different layouts in a book.
pub const LAYOUTS: usize = 64;
/// Attributes of a layout, and so values of a row.
pub const ATTRIBUTES: u32 = 64;
/// Other namespaces, and service definitions, of a header.
pub const LISTED: u32 = 16;
/// Rows passed that a step or a writer's state may state.
pub const ROWS: u64 = 1_048_576;
/// Octets that the listing reads.
pub const LISTING: usize = 65_536;
/// Octets of a document id.
pub const ID: usize = 16;
