//! The end element behind its kind.

use crate::refusal::{refuse, Answer};
use crate::walk::Walk;

#[derive(Clone, Copy, Debug, PartialEq, Eq)]
pub struct End {
    pub count: u32,
    pub time: i64,
}

/// Reads the end from its count; 15 comes before its time, 16 last.
pub fn read(document: &[u8], place: u64, rows: u64) -> Answer<(End, u64)> {
    let mut walk = Walk::new(document, place);
    let count = walk.number()?;
    if u64::from(count) != rows {
        return refuse(15, place);
    }
    let time = walk.time()?;
    if walk.left() > 0 {
        return refuse(16, walk.place());
    }
    Ok((End { count, time }, walk.place()))
}
