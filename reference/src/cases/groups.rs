//! Leaf cases of groups and single bits in a packed table of 160 bits.

use super::bytes::{Reader, Writer};
use crate::generate::rng::Rng;
use crate::memory::{bit, group, put_bit, put_group};

pub const TABLE: usize = 20;
const BITS: u32 = 8 * TABLE as u32;

/// n from 1 to 8 at a width of 16 or 32; n = 0 at width 1 is a single bit.
#[derive(Clone, PartialEq, Eq, Debug)]
pub struct Group {
    pub n: u8,
    pub width: u8,
    pub first: u16,
    pub before: [u8; TABLE],
    pub read: i32,
    pub stored: i32,
    pub after: [u8; TABLE],
}

fn group_case(n: u8, width: u8, first: u32, before: [u8; TABLE], stored: i32) -> Group {
    let mut after = before;
    let read = if width == 1 {
        put_bit(&mut after, first, stored == 1);
        i32::from(bit(&before, first))
    } else {
        put_group(&mut after, first, n, i64::from(stored));
        group(&before, first, n, u32::from(width)) as i32
    };
    Group { n, width, first: first as u16, before, read, stored, after }
}

fn table(which: u32, rng: &mut Rng) -> [u8; TABLE] {
    match which {
        0 => [0; TABLE],
        1 => [0xFF; TABLE],
        _ => [0; TABLE].map(|_| rng.byte()),
    }
}

fn value(width: u8, rng: &mut Rng) -> i32 {
    match (width, rng.below(4)) {
        (1, _) => rng.below(2) as i32,
        (_, 0) => -1,
        (_, 1) => 0,
        _ => rng.signed(u32::from(width)) as i32,
    }
}

/// Starts that touch byte borders and both ends of the table.
fn starts(bits: u32, rng: &mut Rng) -> Vec<u32> {
    let last = BITS - bits;
    vec![0, 1, 4, 7, 8, 13, last - 1, last, rng.between(0, last)]
}

/// Every n at both widths over each table; `count` more at random.
pub fn generate(count: u32, rng: &mut Rng) -> Vec<Group> {
    let mut shapes: Vec<(u8, u8)> = vec![(0, 1)];
    shapes.extend((1..=4).map(|n| (n, 16)));
    shapes.extend((1..=8).map(|n| (n, 32)));
    let mut out = Vec::new();
    for &(n, width) in &shapes {
        for first in starts(u32::from(4 * n).max(1), rng) {
            for which in 0..3 {
                let (before, stored) = (table(which, rng), value(width, rng));
                out.push(group_case(n, width, first, before, stored));
            }
        }
    }
    for _ in 0..count {
        let (n, width) = rng.pick(&shapes);
        let first = rng.below(BITS + 1 - u32::from(4 * n).max(1));
        let (before, stored) = (table(2, rng), value(width, rng));
        out.push(group_case(n, width, first, before, stored));
    }
    out
}

impl Group {
    /// The same case solved again.
    pub fn again(&self) -> Group {
        group_case(self.n, self.width, u32::from(self.first), self.before, self.stored)
    }

    pub fn write(&self, out: &mut Writer) {
        out.u8(self.n);
        out.u8(self.width);
        out.u16(self.first);
        out.all(&self.before);
        out.i32(self.read);
        out.i32(self.stored);
        out.all(&self.after);
        out.all(&[0; 12]);
    }

    pub fn read(from: &mut Reader) -> Option<Group> {
        let (n, width, first) = (from.u8()?, from.u8()?, from.u16()?);
        let before = from.all(TABLE)?.try_into().ok()?;
        let (read, stored) = (from.i32()?, from.i32()?);
        let after = from.all(TABLE)?.try_into().ok()?;
        from.all(12)?;
        let known = matches!((n, width), (0, 1) | (1..=4, 16) | (1..=8, 32));
        if !known || u32::from(first) + u32::from(4 * n).max(1) > BITS {
            return None;
        }
        Some(Group { n, width, first, before, read, stored, after })
    }
}
