//! Octets as pairs of hex digits.

const NO_DIGIT: u8 = 0xff;

const VALUES: [u8; 256] = values();
const PAIRS: [[u8; 2]; 256] = pairs();

const fn values() -> [u8; 256] {
    let mut values = [NO_DIGIT; 256];
    let mut value = 0;
    while value < 16 {
        let digit = b"0123456789abcdef"[value];
        values[digit as usize] = value as u8;
        values[digit.to_ascii_uppercase() as usize] = value as u8;
        value += 1;
    }
    values
}

const fn pairs() -> [[u8; 2]; 256] {
    let digits = b"0123456789abcdef";
    let mut pairs = [[0; 2]; 256];
    let mut octet = 0;
    while octet < 256 {
        pairs[octet] = [digits[octet >> 4], digits[octet & 15]];
        octet += 1;
    }
    pairs
}

/// Adds the digits of the octets to a text.
pub fn encode(octets: &[u8], text: &mut Vec<u8>) {
    let start = text.len();
    text.resize(start + 2 * octets.len(), 0);
    for (pair, &octet) in text[start..].chunks_exact_mut(2).zip(octets) {
        pair.copy_from_slice(&PAIRS[usize::from(octet)]);
    }
}

/// Replaces the octets by those of an even number of digits; false if a character is no hex digit.
pub fn decode(digits: &[u8], octets: &mut Vec<u8>) -> bool {
    octets.clear();
    octets.resize(digits.len() / 2, 0);
    let mut seen = 0;
    for (octet, pair) in octets.iter_mut().zip(digits.chunks_exact(2)) {
        let (high, low) = (VALUES[usize::from(pair[0])], VALUES[usize::from(pair[1])]);
        seen |= high | low;
        *octet = high << 4 | low & 15;
    }
    seen < 16
}

pub fn is_digit(character: u8) -> bool {
    VALUES[usize::from(character)] != NO_DIGIT
}

#[cfg(test)]
mod tests {
    use super::*;

    #[test]
    fn every_octet_and_back() {
        let octets: Vec<u8> = (0..=255).collect();
        let mut text = Vec::new();
        encode(&octets, &mut text);
        assert_eq!(&text[..8], b"00010203");
        assert_eq!(&text[508..], b"feff");
        let mut back = Vec::new();
        assert!(decode(&text, &mut back));
        assert_eq!(back, octets);
        assert!(decode(&text.to_ascii_uppercase(), &mut back));
        assert_eq!(back, octets);
    }

    #[test]
    fn only_hex_digits() {
        let mut octets = Vec::new();
        for character in 0..=255u8 {
            let good = character.is_ascii_hexdigit();
            assert_eq!(is_digit(character), good);
            assert_eq!(decode(&[character, b'0'], &mut octets), good);
            assert_eq!(decode(&[b'f', character], &mut octets), good);
        }
    }
}
