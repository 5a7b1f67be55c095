//! The six requests: how they are spelt, what is wrong with them, what they do and answer.

use super::coils;
use crate::devices::{device_size, inside_d, meets_work, M};

/// Limits of the public application protocol.
pub const MOST_COILS_READ: u32 = 2000;
pub const MOST_REGISTERS_READ: u32 = 125;
pub const MOST_COILS_WRITTEN: u32 = 1968;
pub const MOST_REGISTERS_WRITTEN: u32 = 123;

/// The exception codes, in the order in which they are judged.
pub const UNKNOWN_FUNCTION: u8 = 1;
pub const BAD_VALUE: u8 = 3;
pub const BAD_ADDRESS: u8 = 2;

const ON: u16 = 0xFF00;
const OFF: u16 = 0x0000;

#[derive(Clone, Copy, PartialEq, Eq, Debug)]
pub enum Request<'a> {
    ReadCoils { start: u16, quantity: u16 },
    ReadRegisters { start: u16, quantity: u16 },
    WriteCoil { at: u16, value: u16 },
    WriteRegister { at: u16, value: u16 },
    WriteCoils { start: u16, quantity: u16, data: &'a [u8] },
    WriteRegisters { start: u16, quantity: u16, data: &'a [u8] },
    Unknown,
}

use Request::*;

fn pair(high: u8, low: u8) -> u16 {
    u16::from_be_bytes([high, low])
}

/// A request without station and CRC; none if it has a length that its function can't have.
pub fn read(told: &[u8]) -> Option<Request<'_>> {
    let request = match *told {
        [1, a, b, c, d] => ReadCoils { start: pair(a, b), quantity: pair(c, d) },
        [3, a, b, c, d] => ReadRegisters { start: pair(a, b), quantity: pair(c, d) },
        [5, a, b, c, d] => WriteCoil { at: pair(a, b), value: pair(c, d) },
        [6, a, b, c, d] => WriteRegister { at: pair(a, b), value: pair(c, d) },
        [15, a, b, c, d, count, ref data @ ..] if data.len() == usize::from(count) => {
            WriteCoils { start: pair(a, b), quantity: pair(c, d), data }
        }
        [16, a, b, c, d, count, ref data @ ..] if data.len() == usize::from(count) => {
            WriteRegisters { start: pair(a, b), quantity: pair(c, d), data }
        }
        [1 | 3 | 5 | 6 | 15 | 16, ..] => return None,
        // A frame is at most 256 bytes, three of which are not counted here.
        [_, ..] if told.len() <= 253 => Unknown,
        _ => return None,
    };
    Some(request)
}

impl Request<'_> {
    fn value_sound(self) -> bool {
        let within = |quantity: u16, most: u32| (1..=most).contains(&u32::from(quantity));
        match self {
            ReadCoils { quantity, .. } => within(quantity, MOST_COILS_READ),
            ReadRegisters { quantity, .. } => within(quantity, MOST_REGISTERS_READ),
            WriteCoil { value, .. } => value == ON || value == OFF,
            WriteCoils { quantity, data, .. } => {
                let bytes = usize::from(quantity).div_ceil(8);
                within(quantity, MOST_COILS_WRITTEN) && data.len() == bytes
            }
            WriteRegisters { quantity, data, .. } => {
                let bytes = 2 * usize::from(quantity);
                within(quantity, MOST_REGISTERS_WRITTEN) && data.len() == bytes
            }
            WriteRegister { .. } | Unknown => true,
        }
    }

    fn address_sound(self) -> bool {
        let coils = |start: u16, count: u16| u32::from(start) + u32::from(count) <= device_size(M);
        let written = |start: u16, count: u16| {
            let (start, count) = (u32::from(start), u32::from(count));
            inside_d(start, count) && !meets_work(start, count)
        };
        match self {
            ReadCoils { start, quantity } | WriteCoils { start, quantity, .. } => {
                coils(start, quantity)
            }
            WriteCoil { at, .. } => coils(at, 1),
            ReadRegisters { start, quantity } => inside_d(start.into(), quantity.into()),
            WriteRegister { at, .. } => written(at, 1),
            WriteRegisters { start, quantity, .. } => written(start, quantity),
            Unknown => true,
        }
    }

    /// The exception that the request earns.
    pub fn exception(self) -> Option<u8> {
        if self == Unknown {
            Some(UNKNOWN_FUNCTION)
        } else if !self.value_sound() {
            Some(BAD_VALUE)
        } else if !self.address_sound() {
            Some(BAD_ADDRESS)
        } else {
            None
        }
    }

    pub fn writes(self) -> bool {
        !matches!(self, ReadCoils { .. } | ReadRegisters { .. } | Unknown)
    }

    /// What a sound request writes.
    pub fn carry_out(self, m: &mut [u8], d: &mut [i16]) {
        match self {
            WriteCoil { at, value } => coils::write(m, at, &[value == ON]),
            WriteRegister { at, value } => d[usize::from(at)] = value as i16,
            WriteCoils { start, quantity, data } => {
                coils::write(m, start, &coils::unpacked(data, quantity));
            }
            WriteRegisters { start, data, .. } => {
                for (word, two) in d[usize::from(start)..].iter_mut().zip(data.chunks(2)) {
                    *word = i16::from_be_bytes([two[0], two[1]]);
                }
            }
            ReadCoils { .. } | ReadRegisters { .. } | Unknown => {}
        }
    }

    /// What a sound request, `told` so, is answered, without station and CRC.
    pub fn reply(self, told: &[u8], m: &[u8], d: &[i16]) -> Vec<u8> {
        let data = match self {
            ReadCoils { start, quantity } => coils::packed(&coils::read(m, start, quantity)),
            ReadRegisters { start, quantity } => {
                let words = d.iter().skip(start.into()).take(quantity.into());
                words.flat_map(|word| word.to_be_bytes()).collect()
            }
            // The writes answer function, address, and value or quantity as they were told.
            _ => return told[..5].to_vec(),
        };
        // At most 250 bytes: 2,000 coils or 125 registers.
        let mut reply = vec![told[0], data.len() as u8];
        reply.extend(data);
        reply
    }
}

#[cfg(test)]
mod tests {
    use super::*;

    #[test]
    fn lengths() {
        for function in [1, 3, 5, 6] {
            for length in 1..9 {
                let told = vec![function; length];
                assert_eq!(read(&told).is_some(), length == 5, "{function} {length}");
            }
        }
        for (function, length) in [(15u8, 6usize), (16, 6), (15, 261), (16, 261)] {
            let mut told = vec![0; length];
            (told[0], told[5]) = (function, (length - 6) as u8);
            assert!(read(&told).is_some());
            assert!(read(&told[..length - 1]).is_none());
            told.push(0);
            assert!(read(&told).is_none());
        }
        for function in [0u8, 2, 4, 7, 43, 127, 128, 131, 255] {
            assert_eq!(read(&[function]), Some(Unknown));
            assert_eq!(read(&vec![function; 253]), Some(Unknown));
            assert_eq!(read(&vec![function; 254]), None);
        }
        assert_eq!(read(&[]), None);
    }

    #[test]
    fn order_of_exceptions() {
        let of = |told: &[u8]| read(told).unwrap().exception();
        assert_eq!(of(&[1, 0, 0, 7, 0xD0]), None);
        assert_eq!(of(&[1, 0, 0, 7, 0xD1]), Some(3));
        assert_eq!(of(&[1, 0, 1, 7, 0xD0]), Some(2));
        assert_eq!(of(&[1, 0xFF, 0xFF, 0, 0]), Some(3));
        assert_eq!(of(&[3, 0x1F, 0x3F, 0, 1]), None);
        assert_eq!(of(&[3, 0x1F, 0x3F, 0, 2]), Some(2));
        assert_eq!(of(&[3, 0, 0, 0, 126]), Some(3));
        assert_eq!(of(&[5, 7, 0xD0, 0xFF, 0]), Some(2));
        assert_eq!(of(&[5, 7, 0xD0, 0xFF, 1]), Some(3));
        assert_eq!(of(&[6, 0x1E, 0xDB, 0, 0]), None);
        assert_eq!(of(&[6, 0x1E, 0xDC, 0, 0]), Some(2));
        assert_eq!(of(&[15, 0, 0, 0, 9, 1, 0]), Some(3));
        assert_eq!(of(&[16, 0x1E, 0xDB, 0, 1, 2, 0, 0]), None);
        assert_eq!(of(&[16, 0x1E, 0xDB, 0, 2, 4, 0, 0, 0, 0]), Some(2));
        assert_eq!(of(&[16, 0x1E, 0xDB, 0, 2, 2, 0, 0]), Some(3));
        assert_eq!(of(&[128]), Some(1));
    }
}
