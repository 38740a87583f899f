//! The CRC-32 of IEEE 802.3, computed by bits.

const POLYNOMIAL: u32 = 0xEDB8_8320;

pub fn crc32(bytes: &[u8]) -> u32 {
    let mut register = u32::MAX;
    for &byte in bytes {
        register ^= u32::from(byte);
        for _ in 0..8 {
            let out = register & 1;
            register >>= 1;
            if out == 1 {
                register ^= POLYNOMIAL;
            }
        }
    }
    !register
}

#[cfg(test)]
mod tests {
    use super::crc32;

    #[test]
    fn check_of_nine_digits() {
        assert_eq!(crc32(b"123456789"), 0xCBF4_3926);
        assert_eq!(crc32(b""), 0);
    }
}
