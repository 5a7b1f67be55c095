//! A refusal: its number in the table and the record told.

#[derive(Clone, Copy, PartialEq, Eq, Debug)]
pub struct Refusal {
    pub number: u32,
    pub record: u32,
}

impl Refusal {
    pub fn new(number: u32, record: usize) -> Refusal {
        // A program has at most 2,000 records, so the record always fits.
        Refusal { number, record: record as u32 }
    }
}

impl std::fmt::Display for Refusal {
    fn fmt(&self, f: &mut std::fmt::Formatter<'_>) -> std::fmt::Result {
        write!(f, "refused {} record {}", self.number, self.record)
    }
}
