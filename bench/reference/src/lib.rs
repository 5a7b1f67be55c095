//! The check, the scan, the move, the use map and the Modbus slave of the reference as functions that C can call.

use ninhalto_reference::check::check;
use ninhalto_reference::memory::{Memory, IMAGE};
use ninhalto_reference::modbus::{answer, Answer};
use ninhalto_reference::mover::{move_block, Block, Pool};
use ninhalto_reference::scan::scan;
use ninhalto_reference::usemap::use_map;

/// # Safety
/// `file` holds `size` bytes, and `out` is free to write.
#[no_mangle]
pub unsafe extern "C" fn reference_check(file: *const u8, size: usize, out: *mut [u64; 4]) {
    let told = match check(std::slice::from_raw_parts(file, size)) {
        Ok(accepted) => [0, 0, accepted.records.len() as u64, u64::from(accepted.steps)],
        Err(refusal) => [u64::from(refusal.number), u64::from(refusal.record), 0, 0],
    };
    *out = told;
}

/// So many scans, one after the other. The tables of C are, on x86-64, the image of the memory; it is copied in and out
/// once, so that the copies do not count among the scans.
///
/// # Safety
/// `file` holds `size` bytes, and both `image` and `told` are free to write.
#[no_mangle]
pub unsafe extern "C" fn reference_scans(
    file: *const u8,
    size: usize,
    image: *mut [u8; IMAGE],
    elapsed: u32,
    budget: u32,
    times: usize,
    told: *mut [usize; 7],
) {
    let file = std::slice::from_raw_parts(file, size);
    let Some(mut memory) = Memory::from_image(&*image) else { return };
    for _ in 0..times {
        let words = match scan(file, &mut memory, elapsed, budget) {
            Ok(answer) => {
                let kind = if answer.ended { 1 } else { 2 };
                [0, 0, kind, answer.steps, answer.record, answer.error, answer.error_record]
            }
            Err(refusal) => [refusal.number.into(), refusal.record, 0, 0, 0, 0, 0],
        };
        *told = words.map(|word| word as usize);
    }
    (*image).copy_from_slice(&memory.image());
}

/// # Safety
/// `file` holds `size` bytes, and both it and `told` are free to write.
#[no_mangle]
pub unsafe extern "C" fn reference_move(
    file: *mut u8,
    size: usize,
    start: u32,
    length: u32,
    from: u32,
    end: u32,
    told: *mut [usize; 3],
) {
    let file = std::slice::from_raw_parts_mut(file, size);
    *told = match move_block(file, Block { start, length }, Pool { start: from, end }) {
        Ok(place) => [0, 0, place as usize],
        Err(refusal) => [refusal.number as usize, refusal.record as usize, 0],
    };
}

/// # Safety
/// `file` holds `size` bytes, and the other three are free to write.
#[no_mangle]
pub unsafe extern "C" fn reference_map(
    file: *const u8,
    size: usize,
    told: *mut [usize; 2],
    read: *mut [u8; 1000],
    written: *mut [u8; 1000],
) {
    match use_map(std::slice::from_raw_parts(file, size)) {
        Ok(map) => {
            *told = [0, 0];
            *read = map.read;
            *written = map.written;
        }
        Err(refusal) => {
            *told = [refusal.number as usize, refusal.record as usize];
            *read = [0; 1000];
            *written = [0; 1000];
        }
    }
}

/// # Safety
/// Each part holds as many bytes or words as the number after it says; all but the frame are free to write, and so is `told`.
#[no_mangle]
pub unsafe extern "C" fn reference_answer(
    station: u32,
    frame: *const u8,
    size: usize,
    m: *mut u8,
    m_size: usize,
    d: *mut i16,
    d_size: usize,
    reply: *mut u8,
    reply_size: usize,
    told: *mut [usize; 3],
) {
    let frame = std::slice::from_raw_parts(frame, size);
    let m = std::slice::from_raw_parts_mut(m, m_size);
    let d = std::slice::from_raw_parts_mut(d, d_size);
    let reply = std::slice::from_raw_parts_mut(reply, reply_size);
    *told = match answer(station, frame, m, d, reply) {
        Err(refusal) => [refusal.number as usize, 0, 0],
        Ok(Answer::Silent) => [0, 1, 0],
        Ok(Answer::Reply(length)) => [0, 2, length],
    };
}
