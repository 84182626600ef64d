//! The checksum of a lent buffer: FNV-1a of 64 bits.

pub fn sum(octets: &[u8]) -> u64 {
    let mix = |sum: u64, octet: &u8| (sum ^ u64::from(*octet)).wrapping_mul(0x100_0000_01b3);
    octets.iter().fold(0xcbf2_9ce4_8422_2325, mix)
}

#[cfg(test)]
mod tests {
    use super::sum;

    #[test]
    fn published_values() {
        assert_eq!(sum(b""), 0xcbf29ce484222325);
        assert_eq!(sum(b"a"), 0xaf63dc4c8601ec8c);
        assert_eq!(sum(b"foobar"), 0x85944171f73967e8);
    }
}
