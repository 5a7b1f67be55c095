//! The devices of the base: their ranges, WORK, and the operand kinds of the file.

pub const D_WORDS: u32 = 8000;
pub const T_COUNT: u32 = 256;
pub const WORK_START: u32 = 7900;
pub const LABELS: u32 = 128;

pub const NONE: u8 = 0;
pub const CONSTANT: u8 = 1;
pub const X: u8 = 2;
pub const Y: u8 = 3;
pub const M: u8 = 4;
pub const SM: u8 = 5;
pub const T: u8 = 6;
pub const D: u8 = 7;
pub const LABEL: u8 = 8;

/// Special bits that the base gives a meaning.
pub const SM_RUNNING: u32 = 0;
pub const SM_ZERO: u32 = 180;
pub const SM_ABOVE: u32 = 181;
pub const SM_BELOW: u32 = 182;

/// How many numbers the device of this kind has; 0 if the kind is no device.
pub fn device_size(kind: u8) -> u32 {
    match kind {
        X | Y | SM | T => 256,
        M => 2000,
        D => D_WORDS,
        _ => 0,
    }
}

/// Do two ranges of words (start, length) share a word?
/// Widened, since a caller may give any 32-bit numbers.
pub fn meets(a: u32, a_length: u32, b: u32, b_length: u32) -> bool {
    let (a, b) = (u64::from(a), u64::from(b));
    let (a_end, b_end) = (a + u64::from(a_length), b + u64::from(b_length));
    a.max(b) < a_end.min(b_end)
}

pub fn meets_work(start: u32, length: u32) -> bool {
    meets(start, length, WORK_START, D_WORDS - WORK_START)
}

pub fn inside_d(start: u32, length: u32) -> bool {
    u64::from(start) + u64::from(length) <= u64::from(D_WORDS)
}

#[cfg(test)]
mod tests {
    use super::*;

    #[test]
    fn ranges() {
        assert!(meets(5, 2, 6, 1));
        assert!(!meets(5, 1, 6, 1));
        assert!(!meets(5, 0, 5, 0));
        assert!(meets(0, u32::MAX, u32::MAX - 1, 9));
        assert!(meets_work(7899, 2));
        assert!(!meets_work(7898, 2));
        assert!(inside_d(7999, 1));
        assert!(!inside_d(u32::MAX, u32::MAX));
    }
}
