//! CRC-32 (polynomial 0x04C11DB7, reflected, as in IEEE 802.3).

const TABLE: [u32; 256] = table();

const fn table() -> [u32; 256] {
    let mut table = [0; 256];
    let mut octet = 0;
    while octet < 256 {
        let mut rest = octet as u32;
        let mut bit = 0;
        while bit < 8 {
            rest = if rest & 1 == 1 {
                rest >> 1 ^ 0xedb8_8320
            } else {
                rest >> 1
            };
            bit += 1;
        }
        table[octet] = rest;
        octet += 1;
    }
    table
}

pub fn crc32(octets: &[u8]) -> u32 {
    let step = |rest: u32, &octet: &u8| rest >> 8 ^ TABLE[usize::from(rest as u8 ^ octet)];
    !octets.iter().fold(!0, step)
}

#[cfg(test)]
mod tests {
    #[test]
    fn check_value() {
        assert_eq!(super::crc32(b"123456789"), 0xcbf4_3926);
        assert_eq!(super::crc32(b""), 0);
    }
}
