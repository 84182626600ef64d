//! Values of a row.

use crate::basic::Basic;
use crate::refusal::{refuse, Answer};
use crate::walk::Walk;

/// A value of a basic type, as the part of the document that holds it; for
/// hexBinary and string the part behind the length.
#[derive(Clone, Copy, Debug, PartialEq, Eq)]
pub struct Value<'a> {
    pub basic: Basic,
    pub octets: &'a [u8],
}

impl<'a> Value<'a> {
    /// Reads a value: 1 where it passes the end, 24 for a string that is not
    /// UTF-8, 14 for a bad boolean.
    pub fn read(walk: &mut Walk<'a>, basic: Basic) -> Answer<Value<'a>> {
        let place = walk.place();
        let octets = match basic.width() {
            Some(width) => walk.take(width as u64)?,
            None if basic == Basic::String => walk.string()?,
            None => walk.led()?,
        };
        if basic == Basic::Boolean && octets[0] > 1 {
            return refuse(14, place);
        }
        Ok(Value { basic, octets })
    }

    /// The number that the octets are, two's complement for signed types.
    /// Only meant for types of a width.
    pub fn number(&self) -> i128 {
        let unsigned = self.octets.iter().fold(0, |sum, octet| sum * 256 + i128::from(*octet));
        let range = 1 << (8 * self.octets.len());
        if self.basic.signed() && unsigned >= range / 2 {
            unsigned - range
        } else {
            unsigned
        }
    }
}

#[cfg(test)]
mod tests {
    use super::*;

    fn number(basic: Basic, octets: &[u8]) -> i128 {
        Value { basic, octets }.number()
    }

    #[test]
    fn signed_values_are_twos_complement() {
        assert_eq!(number(Basic::Short, &[0xff, 0xfe]), -2);
        assert_eq!(number(Basic::Short, &[0x80, 0]), -32768);
        assert_eq!(number(Basic::Short, &[0x7f, 0xff]), 32767);
        assert_eq!(number(Basic::Byte, &[0xfe]), -2);
        assert_eq!(number(Basic::Byte, &[0x80]), -128);
        assert_eq!(number(Basic::Int, &[0x80, 0, 0, 0]), -2147483648);
        assert_eq!(number(Basic::Long, &[0x80, 0, 0, 0, 0, 0, 0, 0]), i64::MIN.into());
        assert_eq!(number(Basic::Long, &[0xff; 8]), -1);
    }

    #[test]
    fn unsigned_values_are_plain() {
        assert_eq!(number(Basic::UnsignedShort, &[0xff, 0xfe]), 65534);
        assert_eq!(number(Basic::UnsignedByte, &[0xff]), 255);
        assert_eq!(number(Basic::UnsignedInt, &[0xff; 4]), 4294967295);
        assert_eq!(number(Basic::UnsignedLong, &[0xff; 8]), u64::MAX.into());
        assert_eq!(number(Basic::Boolean, &[1]), 1);
    }
}
