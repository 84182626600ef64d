//! The command stream of a probe.

/// Commands not read yet. Every answer is none where the stream is cut or an
/// argument is out of its range, which the probe calls bad input.
pub struct Input<'a> {
    rest: &'a [u8],
}

impl<'a> Input<'a> {
    pub fn new(octets: &'a [u8]) -> Self {
        Input { rest: octets }
    }

    pub fn letter(&mut self) -> Option<u8> {
        self.take(1).map(|octets| octets[0])
    }

    pub fn number(&mut self) -> Option<u64> {
        self.take(8).map(|octets| octets.iter().fold(0, |sum, octet| sum << 8 | u64::from(*octet)))
    }

    /// A number that fits 32 bits.
    pub fn number32(&mut self) -> Option<u32> {
        u32::try_from(self.number()?).ok()
    }

    pub fn octets(&mut self, limit: u64) -> Option<&'a [u8]> {
        let size = self.number()?;
        if size > limit {
            return None;
        }
        self.take(size)
    }

    fn take(&mut self, size: u64) -> Option<&'a [u8]> {
        if size > self.rest.len() as u64 {
            return None;
        }
        let (taken, rest) = self.rest.split_at(size as usize);
        self.rest = rest;
        Some(taken)
    }

    pub fn is_empty(&self) -> bool {
        self.rest.is_empty()
    }
}
