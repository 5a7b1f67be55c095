//! Modbus frames at the edges of what document 02 says.

use super::requests::*;
use super::rng::Rng;

/// Quantities and addresses at the limits, of each function that has a quantity.
pub fn limits(rng: &mut Rng, own: u8) -> Vec<Vec<u8>> {
    let mut frames = Vec::new();
    for function in [1, 3, 15, 16] {
        let top = most(function);
        for quantity in [0, 1, 2, 8, 9, top - 1, top, top + 1, 65535] {
            let mut starts = vec![0, 1, 1999, 2000, 7899, 7900, 7999, 8000, 65535];
            for end in [2000u16, 7900, 8000] {
                // The last one is the last before the end, and the first behind it.
                if quantity <= end {
                    starts.extend([end - quantity, end + 1 - quantity]);
                }
            }
            starts.sort();
            starts.dedup();
            for start in starts {
                frames.push(known(rng, own, function, start, quantity));
            }
        }
    }
    frames
}

/// Functions 5 and 6 at edges of address and value.
pub fn singles(own: u8) -> Vec<Vec<u8>> {
    let coils = [0, 1, 7, 8, 1000, 1992, 1999, 2000, 2001, 7900, 65535];
    let on_off = [0x0000, 0xFF00, 0x0001, 0x00FF, 0xFF01, 0xFFFF, 0x0100, 0xFE00, 0x8000, 0x7F00];
    let words = [0, 1, 1999, 2000, 7898, 7899, 7900, 7901, 7950, 7999, 8000, 8001, 32768, 65535];
    let values = [0, 1, 0x7FFF, 0x8000, 0xFFFF, 0x1234];
    let mut frames = Vec::new();
    for at in coils {
        frames.extend(on_off.map(|value| frame(own, 5, &two(at, value))));
    }
    for at in words {
        frames.extend(values.map(|value| frame(own, 6, &two(at, value))));
    }
    frames
}

/// Coils at every place in a byte, and counts around whole bytes.
pub fn places(rng: &mut Rng, own: u8) -> Vec<Vec<u8>> {
    let mut frames = Vec::new();
    for function in [1, 15] {
        for place in 0..8 {
            let start = 8 * rng.below(240) as u16 + place;
            for quantity in [1, 2, 7, 8, 9, 15, 16, 17, 24, 25] {
                frames.push(known(rng, own, function, start, quantity));
            }
        }
    }
    frames
}

/// Byte counts that do not fit the quantity, with as many bytes as they say and with others.
pub fn counts(rng: &mut Rng, own: u8) -> Vec<Vec<u8>> {
    let mut frames = Vec::new();
    for function in [15u8, 16] {
        for quantity in [1, 2, 8, 9, 16, 17, 100, most(function)] {
            let right = right_count(function, quantity);
            for count in [right - 1, right + 1] {
                // Also with the bytes of the right count, so that the length does not fit.
                frames.push(write_many(rng, own, function, (5, quantity), count));
                let mut short = write_many(rng, own, function, (5, quantity), right);
                short[6] = count as u8;
                frames.push(resealed(&short));
            }
        }
        for count in [0, 1, 245].into_iter().chain(246..=255) {
            let fitting = if function == 15 { 8 * count } else { count / 2 };
            for quantity in [fitting as u16, most(function), most(function) + 1, 1, 0] {
                frames.push(write_many(rng, own, function, (5, quantity), count));
            }
        }
    }
    frames
}

/// A frame of that length, whole where that can be.
fn of_length(rng: &mut Rng, station: u8, function: u8, length: usize) -> Vec<u8> {
    match length {
        0..=3 => {
            let third = rng.byte();
            [station, function, third][..length].to_vec()
        }
        _ => {
            let body = rng.bytes(length - 4);
            frame(station, function, &body)
        }
    }
}

/// Unknown functions at all the lengths that matter, and known ones at wrong lengths.
pub fn lengths(rng: &mut Rng, own: u8) -> Vec<Vec<u8>> {
    let mut frames = Vec::new();
    for function in UNKNOWN {
        for length in [2, 3, 4, 5, 8, 255, 256, 257] {
            frames.push(of_length(rng, own, function, length));
        }
    }
    for function in KNOWN {
        for length in [2, 3, 4, 5, 6, 7, 9, 10, 256] {
            frames.push(of_length(rng, own, function, length));
        }
    }
    for station in [0, own] {
        frames.extend([vec![], vec![station], crate::modbus::crc::sealed(vec![station])]);
        frames.extend([vec![0xFF, 0xFF], vec![station, 0xFF, 0xFF]]);
    }
    frames
}

/// Each cause of silence, over a request that is otherwise sound.
pub fn silences(rng: &mut Rng, own: u8) -> Vec<Vec<u8>> {
    let mut frames = Vec::new();
    for function in KNOWN.into_iter().chain([4, 129]) {
        let whole = match function {
            4 | 129 => of_length(rng, own, function, 8),
            _ => sound(rng, own, function),
        };
        let last = whole.len() - 1;
        for station in [own ^ 1, own.wrapping_add(1), own ^ 0x80, 248, 255] {
            let mut other = whole.clone();
            other[0] = station;
            frames.extend([resealed(&other), other]);
        }
        frames.push(whole[..last].to_vec());
        frames.push(resealed(&whole[..last]));
        frames.push([&whole[..], &[0]].concat());
        frames.push(resealed(&[&whole[..], &[0]].concat()));
        for bit in 0..16 {
            let mut wrong = whole.clone();
            wrong[last - bit / 8] ^= 1 << (bit % 8);
            frames.push(wrong);
        }
        let mut swapped = whole.clone();
        swapped.swap(last - 1, last);
        frames.push(swapped);
        for at in 1..last - 1 {
            // Many bytes are much alike, so that not each one is tried.
            if at < 8 {
                let mut wrong = whole.clone();
                wrong[at] ^= 1 << rng.below(8);
                frames.push(wrong);
            }
        }
        frames.push(whole);
    }
    frames
}

/// Broadcasts of each kind: writes that are done, and all that is ignored.
pub fn broadcasts(rng: &mut Rng) -> Vec<Vec<u8>> {
    let mut frames = Vec::new();
    for function in KNOWN {
        for _ in 0..12 {
            frames.push(sound(rng, 0, function));
        }
        let most = most(function);
        for (first, second) in [(0, 0), (1999, 2), (2000, 1), (7899, 1), (7899, 2), (7900, 1)] {
            frames.push(known(rng, 0, function, first, second));
        }
        for (first, second) in [(8000, 0xFF00), (0, most), (0, most + 1), (65535, 1), (3, 0xFF00)] {
            frames.push(known(rng, 0, function, first, second));
        }
        let whole = sound(rng, 0, function);
        let last = whole.len() - 1;
        let mut wrong = whole.clone();
        wrong[last] ^= 1;
        frames.push(wrong);
        frames.push(resealed(&whole[..last]));
        frames.push(resealed(&[&whole[..], &[0]].concat()));
    }
    for function in UNKNOWN {
        frames.push(of_length(rng, 0, function, 8));
    }
    for function in [15, 16] {
        frames.push(write_many(rng, 0, function, (5, 9), 3));
    }
    frames
}
