//! The CRC of the serial line document, made as the division that it stands for: by
//! x^16 + x^15 + x^2 + 1, over the bits in the order in which they go over the line.

const DIVISOR: u32 = 0x1_8005;

/// The two bytes that follow these on the line, the low one first.
pub fn crc(bytes: &[u8]) -> [u8; 2] {
    // A byte goes over the line with its lowest bit first. Sixteen zeros make room for the
    // remainder, and the first sixteen bits are turned, which is the register of all ones.
    let sent = bytes.iter().chain(&[0, 0]);
    let bits = sent.flat_map(|&byte| (0..8).map(move |place| byte >> place & 1));
    let mut remainder = 0u32;
    for (number, bit) in bits.enumerate() {
        let turned = u32::from(bit) ^ u32::from(number < 16);
        remainder = remainder << 1 | turned;
        if remainder >= 0x1_0000 {
            remainder ^= DIVISOR;
        }
    }
    // The remainder too is sent from its highest power down, each byte lowest bit first.
    let [high, low] = (remainder as u16).to_be_bytes();
    [high.reverse_bits(), low.reverse_bits()]
}

/// The bytes with their CRC.
pub fn sealed(mut bytes: Vec<u8>) -> Vec<u8> {
    let two = crc(&bytes);
    bytes.extend(two);
    bytes
}

/// The bytes before a CRC that is theirs.
pub fn opened(frame: &[u8]) -> Option<&[u8]> {
    let (bytes, last) = frame.split_at_checked(frame.len().checked_sub(2)?)?;
    (last == crc(bytes)).then_some(bytes)
}

#[cfg(test)]
mod tests {
    use super::{crc, opened};

    /// The way of the serial line document's appendix: shifts to the right.
    fn by_shifts(bytes: &[u8]) -> [u8; 2] {
        let mut register = 0xFFFFu16;
        for &byte in bytes {
            register ^= u16::from(byte);
            for _ in 0..8 {
                let out = register & 1;
                register >>= 1;
                if out == 1 {
                    register ^= 0xA001;
                }
            }
        }
        register.to_le_bytes()
    }

    #[test]
    fn published_sums() {
        // The serial line document's own example, and the catalogued check value.
        assert_eq!(crc(&[0x02, 0x07]), [0x41, 0x12]);
        assert_eq!(crc(b"123456789"), [0x37, 0x4B]);
        assert_eq!(crc(b""), [0xFF, 0xFF]);
    }

    #[test]
    fn division_and_shifts_agree() {
        let bytes: Vec<u8> = (0..300u32).map(|i| (i * i * 31 + 7 * i) as u8).collect();
        for length in 0..bytes.len() {
            assert_eq!(crc(&bytes[..length]), by_shifts(&bytes[..length]), "{length}");
        }
        for byte in 0..=255 {
            assert_eq!(crc(&[byte]), by_shifts(&[byte]));
        }
    }

    #[test]
    fn opening() {
        assert_eq!(opened(&[0x02, 0x07, 0x41, 0x12]), Some(&[0x02, 0x07][..]));
        assert_eq!(opened(&[0x02, 0x07, 0x12, 0x41]), None);
        assert_eq!(opened(&[0xFF, 0xFF]), Some(&[][..]));
        assert_eq!(opened(&[0xFF]), None);
        assert_eq!(opened(&[]), None);
    }
}
