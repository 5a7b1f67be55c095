//! The word instructions as arithmetic: exact results first, then what is stored.

use crate::instruction::{Instruction, Width};

pub const ZERO_DIVISOR: u32 = 1;
pub const OUT_OF_DOMAIN: u32 = 2;

#[derive(Clone, Copy, PartialEq, Eq, Debug)]
pub enum Operation {
    Move,
    Sum,
    Subtract,
    Multiply,
    Divide,
    Root,
    Increase,
    Decrease,
    Absolute,
    Negate,
}

/// The operation and the width of a word instruction; none for all others.
pub fn operation(instruction: Instruction) -> Option<(Operation, Width)> {
    use Instruction::*;
    use Operation::*;
    use Width::*;
    Some(match instruction {
        Mov => (Move, W16),
        Add => (Sum, W16),
        Sub => (Subtract, W16),
        Div => (Divide, W16),
        Sqt => (Root, W16),
        Inc => (Increase, W16),
        Dec => (Decrease, W16),
        Vabs => (Absolute, W16),
        Neg => (Negate, W16),
        Dmov => (Move, W32),
        Dadd => (Sum, W32),
        Dsub => (Subtract, W32),
        Dmul => (Multiply, W32),
        Ddiv => (Divide, W32),
        Dsqt => (Root, W32),
        Dinc => (Increase, W32),
        Ddec => (Decrease, W32),
        _ => return None,
    })
}

/// SM180, SM181, SM182.
#[derive(Clone, Copy, PartialEq, Eq, Debug)]
pub struct Flags {
    pub zero: bool,
    pub above: bool,
    pub below: bool,
}

#[derive(Clone, Copy, PartialEq, Eq, Debug)]
pub struct Outcome {
    pub value: i64,
    /// The remainder of a division.
    pub second: Option<i64>,
    /// None if the instruction leaves the flags alone.
    pub flags: Option<Flags>,
}

fn lowest(width: Width) -> i128 {
    -(1i128 << (width.bits() - 1))
}

fn highest(width: Width) -> i128 {
    (1i128 << (width.bits() - 1)) - 1
}

/// The low bits of the width, as two's complement.
pub fn wrap(exact: i128, width: Width) -> i64 {
    let modulus = 1i128 << width.bits();
    let low = exact.rem_euclid(modulus);
    let value = if low > highest(width) { low - modulus } else { low };
    value as i64
}

fn plain(exact: i128, width: Width) -> Outcome {
    Outcome { value: wrap(exact, width), second: None, flags: None }
}

/// Flags judge the exact result, never what is stored.
fn with_flags(exact: i128, width: Width) -> Outcome {
    let flags =
        Flags { zero: exact == 0, above: exact > highest(width), below: exact < lowest(width) };
    Outcome { flags: Some(flags), ..plain(exact, width) }
}

fn divide(a: i128, b: i128, width: Width) -> Result<Outcome, u32> {
    if b == 0 {
        return Err(ZERO_DIVISOR);
    }
    // Rust rounds toward zero; the lowest number by -1 passes the range and wraps to itself.
    Ok(Outcome { second: Some(wrap(a % b, width)), ..plain(a / b, width) })
}

/// The largest whole number whose square is not above `a`, by halving.
pub fn whole_root(a: i128) -> i128 {
    let (mut low, mut above) = (0i128, 65536i128);
    while above - low > 1 {
        let middle = (low + above) / 2;
        if middle * middle <= a {
            low = middle;
        } else {
            above = middle;
        }
    }
    low
}

fn root(a: i128, width: Width) -> Result<Outcome, u32> {
    if a < 0 {
        return Err(OUT_OF_DOMAIN);
    }
    let found = whole_root(a);
    let flags = Flags { zero: found == 0, above: false, below: found * found != a };
    Ok(Outcome { flags: Some(flags), ..plain(found, width) })
}

fn in_range(exact: i128, width: Width) -> Result<Outcome, u32> {
    if exact > highest(width) {
        return Err(OUT_OF_DOMAIN);
    }
    Ok(plain(exact, width))
}

/// `a` is the first source (or the target that is also read), `b` the second if there is one.
pub fn apply(operation: Operation, width: Width, a: i64, b: i64) -> Result<Outcome, u32> {
    let (a, b) = (i128::from(a), i128::from(b));
    match operation {
        Operation::Move => Ok(plain(a, width)),
        Operation::Sum => Ok(with_flags(a + b, width)),
        Operation::Subtract => Ok(with_flags(a - b, width)),
        Operation::Multiply => Ok(plain(a * b, width)),
        Operation::Divide => divide(a, b, width),
        Operation::Root => root(a, width),
        Operation::Increase => Ok(plain(a + 1, width)),
        Operation::Decrease => Ok(plain(a - 1, width)),
        Operation::Absolute => in_range(a.abs(), width),
        Operation::Negate => in_range(-a, width),
    }
}

#[cfg(test)]
mod tests {
    use super::*;
    use Width::*;

    fn value(operation: Operation, width: Width, a: i64, b: i64) -> i64 {
        apply(operation, width, a, b).unwrap().value
    }

    #[test]
    fn sums() {
        let sum = apply(Operation::Sum, W16, -32768, -32768).unwrap();
        assert_eq!(sum.value, 0);
        assert_eq!(sum.flags, Some(Flags { zero: false, above: false, below: true }));
        let sum = apply(Operation::Sum, W16, 32767, 1).unwrap();
        assert_eq!(sum.value, -32768);
        assert_eq!(sum.flags, Some(Flags { zero: false, above: true, below: false }));
        assert_eq!(value(Operation::Subtract, W32, i64::from(i32::MIN), 1), i64::from(i32::MAX));
        assert_eq!(value(Operation::Multiply, W32, 65536, 65536), 0);
        assert_eq!(value(Operation::Increase, W16, 32767, 0), -32768);
    }

    #[test]
    fn divisions() {
        let lowest = apply(Operation::Divide, W16, -32768, -1).unwrap();
        assert_eq!((lowest.value, lowest.second), (-32768, Some(0)));
        let quotient = apply(Operation::Divide, W16, -7, 2).unwrap();
        assert_eq!((quotient.value, quotient.second, quotient.flags), (-3, Some(-1), None));
        assert_eq!(apply(Operation::Divide, W32, 5, 0), Err(ZERO_DIVISOR));
    }

    #[test]
    fn roots() {
        for a in 0..70_000i128 {
            let found = whole_root(a);
            assert!(found * found <= a && (found + 1) * (found + 1) > a);
        }
        assert_eq!(whole_root(i128::from(i32::MAX)), 46340);
        assert_eq!(apply(Operation::Root, W32, -1, 0), Err(OUT_OF_DOMAIN));
        assert_eq!(apply(Operation::Absolute, W16, -32768, 0), Err(OUT_OF_DOMAIN));
        assert_eq!(apply(Operation::Negate, W16, -32768, 0), Err(OUT_OF_DOMAIN));
    }
}
