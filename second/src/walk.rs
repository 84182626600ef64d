//! Reading fields one behind another, up to the end of some octets.

use crate::refusal::{refuse, Answer};
use crate::utf8;

/// A place in octets. The place may be any number; a field that would pass
/// the end is refused by 1 at its own place and leaves the walk where it was.
pub struct Walk<'a> {
    octets: &'a [u8],
    place: u64,
}

impl<'a> Walk<'a> {
    pub fn new(octets: &'a [u8], place: u64) -> Self {
        Walk { octets, place }
    }

    pub fn place(&self) -> u64 {
        self.place
    }

    /// What is left before the end; none where the place is past it.
    pub fn left(&self) -> u64 {
        (self.octets.len() as u64).saturating_sub(self.place)
    }

    pub fn take(&mut self, size: u64) -> Answer<&'a [u8]> {
        if size > self.left() || self.place > self.octets.len() as u64 {
            return refuse(1, self.place);
        }
        let from = self.place as usize;
        self.place += size;
        Ok(&self.octets[from..self.place as usize])
    }

    fn array<const N: usize>(&mut self) -> Answer<[u8; N]> {
        let mut array = [0; N];
        array.copy_from_slice(self.take(N as u64)?);
        Ok(array)
    }

    pub fn number(&mut self) -> Answer<u32> {
        self.array().map(u32::from_be_bytes)
    }

    pub fn time(&mut self) -> Answer<i64> {
        self.array().map(i64::from_be_bytes)
    }

    /// A length and its octets; both faults stand at the length.
    pub fn led(&mut self) -> Answer<&'a [u8]> {
        let place = self.place;
        let size = self.number()?;
        self.take(size.into()).or_else(|_| refuse(1, place))
    }

    /// A length and octets that are UTF-8; once they are there, 24 where they
    /// are not.
    pub fn string(&mut self) -> Answer<&'a [u8]> {
        let place = self.place;
        let octets = self.led()?;
        if !utf8::is_well_formed(octets) {
            return refuse(24, place);
        }
        Ok(octets)
    }

    /// A count, refused by 4 where it is over its limit.
    pub fn count(&mut self, limit: u32) -> Answer<u32> {
        let place = self.place;
        let count = self.number()?;
        if count > limit {
            return refuse(4, place);
        }
        Ok(count)
    }
}
