//! A lent part with guards before and behind it, so that a write past its ends is seen.

const GUARD: usize = 64;

pub struct Lent<T> {
    all: Vec<T>,
    guard: T,
}

impl<T: Copy + PartialEq> Lent<T> {
    pub fn new(content: &[T], guard: T) -> Lent<T> {
        let mut all = vec![guard; GUARD];
        all.extend_from_slice(content);
        all.extend(vec![guard; GUARD]);
        Lent { all, guard }
    }

    pub fn len(&self) -> usize {
        self.all.len() - 2 * GUARD
    }

    pub fn lend(&mut self) -> *mut T {
        self.all[GUARD..].as_mut_ptr()
    }

    pub fn content(&self) -> &[T] {
        &self.all[GUARD..GUARD + self.len()]
    }

    pub fn guards_hold(&self) -> bool {
        let (front, rest) = self.all.split_at(GUARD);
        front.iter().chain(&rest[self.len()..]).all(|&entry| entry == self.guard)
    }
}
