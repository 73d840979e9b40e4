//! The checks at the end of saved bytes.

/// CRC-32, zlib's, a byte at a time.
pub(super) fn crc32(bytes: &[u8]) -> u32 {
    !bytes.iter().fold(!0, |r, b| (r >> 8) ^ TABLE_32[(r as u8 ^ b) as usize])
}

/// CRC-64/XZ, a byte at a time.
pub(super) fn crc64(bytes: &[u8]) -> u64 {
    !bytes.iter().fold(!0, |r, b| (r >> 8) ^ TABLE_64[(r as u8 ^ b) as usize])
}

const TABLE_32: [u32; 256] = {
    let wide = table(0xEDB8_8320);
    let mut narrow = [0; 256];
    let mut i = 0;
    while i < 256 {
        narrow[i] = wide[i] as u32;
        i += 1;
    }
    narrow
};

const TABLE_64: [u64; 256] = table(0xC96C_5795_D787_0F42);

/// What each byte leaves after eight divisions by a polynomial, its bits reversed.
const fn table(polynomial: u64) -> [u64; 256] {
    let mut table = [0; 256];
    let mut i = 0;
    while i < 256 {
        let mut r = i as u64;
        let mut bit = 0;
        while bit < 8 {
            r = (r >> 1) ^ ((r & 1) * polynomial);
            bit += 1;
        }
        table[i] = r;
        i += 1;
    }
    table
}

#[cfg(test)]
mod tests {
    /// The published check values; zlib's crc32 answers the first, and the second below for all bytes from 0 to 255.
    #[test]
    fn check_values() {
        assert_eq!(super::crc32(b"123456789"), 0xCBF4_3926);
        assert_eq!(super::crc32(&(0..=255).collect::<Vec<u8>>()), 0x2905_8C73);
        assert_eq!(super::crc64(b"123456789"), 0x995D_C9BB_DF19_39FA);
    }
}
