//! The checksum of case files: two sums modulo 65521 over the bytes in order.

pub fn checksum(bytes: &[u8]) -> u32 {
    let (mut a, mut b) = (1u32, 0u32);
    for &byte in bytes {
        a = (a + u32::from(byte)) % 65521;
        b = (b + a) % 65521;
    }
    b * 65536 + a
}

pub fn checksum_of_words(words: &[i16]) -> u32 {
    let bytes: Vec<u8> = words.iter().flat_map(|word| word.to_le_bytes()).collect();
    checksum(&bytes)
}

#[cfg(test)]
mod tests {
    #[test]
    fn known_sums() {
        assert_eq!(super::checksum(b""), 1);
        assert_eq!(super::checksum(b"Wikipedia"), 0x11E6_0398);
    }
}
