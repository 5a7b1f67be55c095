//! The program file: frame (comment, records, trailer), records and operands.

use crate::refusal::Refusal;

pub const TRAILER: usize = 8;
pub const RECORD: usize = 20;
pub const LONGEST_COMMENT: usize = 4096;
pub const MOST_RECORDS: usize = 2000;
pub const EDITION: u16 = 1;

#[derive(Clone, Copy, PartialEq, Eq, Debug, Default)]
pub struct Operand {
    pub kind: u8,
    pub group: u8,
    /// As it stands in the file. Only a constant is read as signed.
    pub value: u32,
}

impl Operand {
    pub fn new(kind: u8, group: u8, value: u32) -> Operand {
        Operand { kind, group, value }
    }

    pub fn constant(value: i32) -> Operand {
        Operand::new(crate::devices::CONSTANT, 0, value as u32)
    }

    pub fn signed(self) -> i32 {
        self.value as i32
    }
}

#[derive(Clone, Copy, PartialEq, Eq, Debug, Default)]
pub struct Record {
    pub number: u8,
    pub spare: u8,
    pub operands: [Operand; 3],
}

/// Where the records of a file lie.
#[derive(Clone, Copy, PartialEq, Eq, Debug)]
pub struct Frame {
    /// Bytes of comment before the first record.
    pub comment: usize,
    pub count: usize,
}

fn u16_at(bytes: &[u8], at: usize) -> u16 {
    u16::from_le_bytes([bytes[at], bytes[at + 1]])
}

fn u32_at(bytes: &[u8], at: usize) -> u32 {
    u32::from_le_bytes([bytes[at], bytes[at + 1], bytes[at + 2], bytes[at + 3]])
}

/// Reads the trailer; refusal 1 for every way in which the frame can be wrong.
pub fn frame(bytes: &[u8]) -> Result<Frame, Refusal> {
    let broken = Refusal::new(1, 0);
    if bytes.len() < TRAILER {
        return Err(broken);
    }
    let trailer = bytes.len() - TRAILER;
    let edition = u16_at(bytes, trailer);
    let count = usize::from(u16_at(bytes, trailer + 2));
    let distance = u64::from(u32_at(bytes, trailer + 4));
    if edition != EDITION || !(1..=MOST_RECORDS).contains(&count) {
        return Err(broken);
    }
    if distance != (RECORD * count + TRAILER) as u64 || distance > bytes.len() as u64 {
        return Err(broken);
    }
    let comment = bytes.len() - (RECORD * count + TRAILER);
    if comment > LONGEST_COMMENT {
        return Err(broken);
    }
    Ok(Frame { comment, count })
}

fn operand(bytes: &[u8], at: usize) -> Operand {
    Operand::new(bytes[at], bytes[at + 1], u32_at(bytes, at + 2))
}

fn record(bytes: &[u8], at: usize) -> Record {
    let operands = [operand(bytes, at + 2), operand(bytes, at + 8), operand(bytes, at + 14)];
    Record { number: bytes[at], spare: bytes[at + 1], operands }
}

pub fn records(bytes: &[u8], frame: Frame) -> Vec<Record> {
    (0..frame.count).map(|i| record(bytes, frame.comment + RECORD * i)).collect()
}

/// Offset in the file of the number of one operand of one record.
pub fn value_offset(frame: Frame, record: usize, operand: usize) -> usize {
    frame.comment + RECORD * record + 2 + 6 * operand + 2
}

fn encode_record(record: &Record, out: &mut Vec<u8>) {
    out.push(record.number);
    out.push(record.spare);
    for operand in record.operands {
        out.push(operand.kind);
        out.push(operand.group);
        out.extend_from_slice(&operand.value.to_le_bytes());
    }
}

/// The trailer as its three numbers say, right or wrong.
pub fn trailer(edition: u16, count: u16, distance: u32) -> Vec<u8> {
    let mut out = Vec::new();
    out.extend_from_slice(&edition.to_le_bytes());
    out.extend_from_slice(&count.to_le_bytes());
    out.extend_from_slice(&distance.to_le_bytes());
    out
}

pub fn encode_records(records: &[Record]) -> Vec<u8> {
    let mut out = Vec::new();
    for record in records {
        encode_record(record, &mut out);
    }
    out
}

/// A whole file. The count must fit the trailer's 16 bits to be told rightly.
pub fn encode(comment: &[u8], records: &[Record]) -> Vec<u8> {
    let mut out = comment.to_vec();
    out.extend(encode_records(records));
    let distance = (RECORD * records.len() + TRAILER) as u32;
    out.extend(trailer(EDITION, records.len() as u16, distance));
    out
}

#[cfg(test)]
mod tests {
    use super::*;

    #[test]
    fn shortest_program() {
        let end = Record { number: 23, ..Record::default() };
        let bytes = encode(&[], &[end]);
        let mut expected = vec![0x17];
        expected.extend([0; 19]);
        expected.extend([1, 0, 1, 0, 0x1C, 0, 0, 0]);
        assert_eq!(bytes, expected);
        let found = frame(&bytes).unwrap();
        assert_eq!(found, Frame { comment: 0, count: 1 });
        assert_eq!(records(&bytes, found), vec![end]);
    }

    #[test]
    fn comment_bounds() {
        let end = Record { number: 23, ..Record::default() };
        assert_eq!(frame(&encode(&[7; 4096], &[end])).unwrap().comment, 4096);
        assert_eq!(frame(&encode(&[7; 4097], &[end])), Err(Refusal::new(1, 0)));
        assert_eq!(frame(&encode(&[], &[end])[1..]), Err(Refusal::new(1, 0)));
    }
}
