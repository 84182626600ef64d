//! Octets as lower-case hex digits.

pub fn digits(octets: &[u8]) -> String {
    const DIGITS: &[u8; 16] = b"0123456789abcdef";
    let mut text = String::with_capacity(2 * octets.len());
    for octet in octets {
        text.push(char::from(DIGITS[usize::from(octet >> 4)]));
        text.push(char::from(DIGITS[usize::from(octet & 15)]));
    }
    text
}

/// The probe's HEX: a dash where there are no octets.
pub fn word(octets: &[u8]) -> String {
    if octets.is_empty() {
        return "-".to_string();
    }
    digits(octets)
}
