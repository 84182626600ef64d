//! The thirteen basic types, and the 32-bit types that stand in layouts.

#[derive(Clone, Copy, Debug, PartialEq, Eq)]
pub enum Basic {
    Int,
    UnsignedInt,
    Long,
    UnsignedLong,
    Float,
    Double,
    HexBinary,
    String,
    Boolean,
    Byte,
    UnsignedByte,
    Short,
    UnsignedShort,
}

/// Every basic type with its low octet.
pub const BASICS: [(u8, Basic); 13] = [
    (0x21, Basic::Int),
    (0x22, Basic::UnsignedInt),
    (0x23, Basic::Long),
    (0x24, Basic::UnsignedLong),
    (0x25, Basic::Float),
    (0x26, Basic::Double),
    (0x27, Basic::HexBinary),
    (0x28, Basic::String),
    (0x29, Basic::Boolean),
    (0x2a, Basic::Byte),
    (0x2b, Basic::UnsignedByte),
    (0x2c, Basic::Short),
    (0x2d, Basic::UnsignedShort),
];

impl Basic {
    pub fn of(low: u8) -> Option<Basic> {
        BASICS.iter().find(|(number, _)| *number == low).map(|(_, basic)| *basic)
    }

    /// The low octet of the type.
    pub fn low(self) -> u8 {
        0x21 + self as u8
    }

    /// Octets of a value; none for the two types that are led by a length.
    pub fn width(self) -> Option<usize> {
        match self {
            Basic::HexBinary | Basic::String => None,
            Basic::Boolean | Basic::Byte | Basic::UnsignedByte => Some(1),
            Basic::Short | Basic::UnsignedShort => Some(2),
            Basic::Int | Basic::UnsignedInt | Basic::Float => Some(4),
            Basic::Long | Basic::UnsignedLong | Basic::Double => Some(8),
        }
    }

    pub fn signed(self) -> bool {
        matches!(self, Basic::Int | Basic::Long | Basic::Byte | Basic::Short)
    }

    /// Float and double, which are kept as bits.
    pub fn kept_as_bits(self) -> bool {
        matches!(self, Basic::Float | Basic::Double)
    }
}

/// A type that passed the refusals 8 and 9, with all its 32 bits.
#[derive(Clone, Copy, Debug, PartialEq, Eq)]
pub struct Type {
    pub bits: u32,
    pub basic: Basic,
}

impl Type {
    /// The type of these bits, or the number of its refusal.
    pub fn of(bits: u32) -> Result<Type, u8> {
        if bits >> 31 == 1 {
            return Err(9);
        }
        match Basic::of(bits as u8) {
            Some(basic) if bits >> 16 == 0 => Ok(Type { bits, basic }),
            _ => Err(8),
        }
    }
}

#[cfg(test)]
mod tests {
    use super::*;

    #[test]
    fn low_octets_and_widths_are_the_table() {
        let widths = [4, 4, 8, 8, 4, 8, 0, 0, 1, 1, 1, 2, 2];
        for (index, (low, basic)) in BASICS.iter().enumerate() {
            assert_eq!(*low as usize, 0x21 + index);
            assert_eq!(basic.low(), *low);
            assert_eq!(basic.width().unwrap_or(0), widths[index]);
        }
    }

    #[test]
    fn only_thirteen_low_octets_have_a_type() {
        let known: Vec<u8> = (0..=255).filter(|low| Basic::of(*low).is_some()).collect();
        assert_eq!(known, (0x21..=0x2d).collect::<Vec<u8>>());
    }

    #[test]
    fn faults_of_types() {
        assert_eq!(Type::of(0x0000_0020), Err(8));
        assert_eq!(Type::of(0x0000_002e), Err(8));
        assert_eq!(Type::of(0x0001_0022), Err(8));
        assert_eq!(Type::of(0x4000_0022), Err(8));
        assert_eq!(Type::of(0x8000_0022), Err(9));
        assert_eq!(Type::of(0xffff_ffff), Err(9));
        assert_eq!(Type::of(0x0000_ff22).map(|kind| kind.basic), Ok(Basic::UnsignedInt));
        assert_eq!(Type::of(0x0000_0922).map(|kind| kind.bits), Ok(0x922));
    }
}
