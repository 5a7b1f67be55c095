//! The time of a scan, document 02, (iv): whole units for the timers of each base, and the
//! milliseconds left over.

/// Milliseconds, the most that a scan is given.
pub const LONGEST_ELAPSED: u32 = 10_000;

/// Milliseconds of one unit of this timer.
pub fn base(timer: u32) -> u32 {
    match timer {
        0..=209 => 100,
        210..=251 => 10,
        _ => 1,
    }
}

/// Two leftovers, each less than a unit: of the 10 ms timers, then of the 100 ms timers.
pub fn sound(rest: &[u8]) -> bool {
    matches!(rest, [0..=9, 0..=99])
}

/// What a timer of each base is given at every execution in one scan.
#[derive(Clone, Copy, PartialEq, Eq, Debug)]
pub struct Units {
    of_100: u32,
    of_10: u32,
    of_1: u32,
}

/// Takes whole units off the time, one by one; the rest is left over.
fn take_off(left: &mut u8, elapsed: u32, base: u32) -> u32 {
    let (mut time, mut units) = (u32::from(*left) + elapsed, 0);
    while time >= base {
        time -= base;
        units += 1;
    }
    *left = time as u8;
    units
}

impl Units {
    /// Sets sound leftovers anew: once for a scan.
    pub fn of_scan(rest: &mut [u8], elapsed: u32) -> Units {
        let of_10 = take_off(&mut rest[0], elapsed, 10);
        let of_100 = take_off(&mut rest[1], elapsed, 100);
        Units { of_100, of_10, of_1: elapsed }
    }

    pub fn of(&self, timer: u32) -> u32 {
        match base(timer) {
            100 => self.of_100,
            10 => self.of_10,
            _ => self.of_1,
        }
    }
}

#[cfg(test)]
mod tests {
    use super::*;

    #[test]
    fn bases() {
        let count = |wanted: u32| (0..256).filter(|&timer| base(timer) == wanted).count();
        assert_eq!([100, 10, 1].map(count), [210, 42, 4]);
        assert_eq!([0, 209, 210, 251, 252, 255].map(base), [100, 100, 10, 10, 1, 1]);
    }

    #[test]
    fn soundness() {
        for ten in 0..=255 {
            for hundred in 0..=255 {
                assert_eq!(sound(&[ten, hundred]), ten < 10 && hundred < 100);
            }
        }
        assert!(!sound(&[]) && !sound(&[0]) && !sound(&[0, 0, 0]));
    }

    #[test]
    fn units() {
        for elapsed in (0..300).chain(9_899..=LONGEST_ELAPSED) {
            for hundred in 0..100u8 {
                let mut rest = [hundred % 10, hundred];
                let units = Units::of_scan(&mut rest, elapsed);
                let (tens, hundreds) =
                    (u32::from(hundred % 10) + elapsed, u32::from(hundred) + elapsed);
                let found = [0, 210, 252].map(|timer| units.of(timer));
                assert_eq!(found, [hundreds / 100, tens / 10, elapsed]);
                assert_eq!(rest.map(u32::from), [tens % 10, hundreds % 100]);
            }
        }
    }
}
