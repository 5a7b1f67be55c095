//! Numbers at which the word instructions turn.

use crate::instruction::Width;

/// For both sources of an instruction that takes two.
pub fn edges(width: Width) -> Vec<i64> {
    let top = (1i64 << (width.bits() - 1)) - 1;
    let half = (top + 1) / 2;
    vec![-top - 1, -top, -half - 1, -half, -1000, -7, -2, -1, 0, 1, 2, 7, 1000, half, top - 1, top]
}

fn squares(width: Width) -> Vec<i64> {
    let roots: Vec<i64> = match width {
        Width::W16 => vec![1, 2, 3, 4, 5, 6, 7, 8, 9, 10, 15, 16, 31, 32, 100, 127, 128, 180, 181],
        Width::W32 => {
            vec![1, 2, 3, 4, 181, 182, 255, 256, 288, 4095, 4096, 32767, 32768, 46339, 46340]
        }
    };
    roots.iter().flat_map(|root| [root * root - 1, root * root, root * root + 1]).collect()
}

/// For an instruction that takes one source.
pub fn singles(width: Width) -> Vec<i64> {
    let mut found = edges(width);
    found.extend(squares(width));
    found.extend([100, -31072, 9, 31, 255, 256]);
    if width == Width::W32 {
        found.extend([65535, 65536, -65536, -65537, 100_000, 83_000, 32768, -32769]);
    }
    let top = 1i64 << (width.bits() - 1);
    found.retain(|value| (-top..top).contains(value));
    found.sort_unstable();
    found.dedup();
    found
}
