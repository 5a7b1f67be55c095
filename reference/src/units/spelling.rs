//! Numbers and blocks as the texts of document 02 spell them.

use crate::mover::Block;
use crate::refusal::Refusal;

pub const BLANK: u8 = b' ';
pub const LINE_FEED: u8 = b'\n';

/// A number of up to `most`. It has one spelling, the one in which it would be written.
pub fn number(spelt: &[u8], most: u32) -> Option<u32> {
    let text = std::str::from_utf8(spelt).ok()?;
    // This also takes a plus and leading zeros.
    let value: u32 = text.parse().ok()?;
    (value <= most && value.to_string() == text).then_some(value)
}

/// Start and length at the end of a line, both of up to `most`, and what stands before the
/// blank ahead of them. No number has a blank in it, so the last two blanks part them.
pub fn block(line: &[u8], most: u32) -> Option<(&[u8], Block)> {
    let mut fields = line.rsplitn(3, |&byte| byte == BLANK);
    let length = number(fields.next()?, most)?;
    let start = number(fields.next()?, most)?;
    Some((fields.next()?, Block { start, length }))
}

/// The lines of a text as far as they are well spelt, and 15 at the first that is not.
pub fn lines<T>(text: &[u8], one: fn(&[u8]) -> Option<T>) -> (Vec<T>, Option<Refusal>) {
    let mut found = Vec::new();
    for line in text.split_inclusive(|&byte| byte == LINE_FEED) {
        // A last line that is not ended is misspelt too.
        match line.strip_suffix(&[LINE_FEED]).and_then(one) {
            Some(entry) => found.push(entry),
            None => {
                let refusal = Refusal::new(15, found.len());
                return (found, Some(refusal));
            }
        }
    }
    (found, None)
}

#[cfg(test)]
mod tests {
    use super::{block, number};
    use crate::mover::Block;

    #[test]
    fn numbers() {
        for (text, value) in [("0", 0), ("7", 7), ("10", 10), ("8000", 8000)] {
            assert_eq!(number(text.as_bytes(), 8000), Some(value));
        }
        for wrong in ["", "00", "01", "-0", "-1", "+1", " 1", "1 ", "8001", "1\r", "0x1", "1_0"] {
            assert_eq!(number(wrong.as_bytes(), 8000), None, "{wrong}");
        }
        assert_eq!(number(b"4294967295", u32::MAX), Some(u32::MAX));
        assert_eq!(number(b"4294967296", u32::MAX), None);
        assert_eq!(number(b"18446744073709551617", u32::MAX), None);
        assert_eq!(number(&[b'0'; 30], u32::MAX), None);
        assert_eq!(number(&[b'9'; 300], u32::MAX), None);
        assert_eq!(number(&[0xB1], u32::MAX), None);
    }

    #[test]
    fn blocks() {
        let found = Block { start: 3, length: 4 };
        assert_eq!(block(b"1 2 3 4", 9), Some((&b"1 2"[..], found)));
        assert_eq!(block(b" 3 4", 9), Some((&b""[..], found)));
        for wrong in ["3 4", "", "  ", "a 3  4", "a 3 4 ", "a  4", "a 3\t4", "a 10 4"] {
            assert_eq!(block(wrong.as_bytes(), 9), None, "{wrong}");
        }
    }
}
