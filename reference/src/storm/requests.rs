//! Frames of any kind: what is written and what is not, and a broadcast beside the same
//! request to the own station.

use super::{hold, Held, Tally};
use crate::cases::make::random_request;
use crate::devices::WORK_START;
use crate::generate::requests::resealed;
use crate::generate::rng::Rng;
use crate::memory::Memory;
use crate::modbus::crc::opened;
use crate::modbus::{answer, Answer};
use crate::refusal::Refusal;

type Answered = Result<Answer, Refusal>;

/// The answer and the whole reply buffer.
fn asked(own: u32, frame: &[u8], memory: &mut Memory, buffer: usize) -> (Answered, Vec<u8>) {
    let mut reply = vec![0xA5; buffer];
    let answered = answer(own, frame, &mut memory.m, &mut memory.d, &mut reply);
    (answered, reply)
}

fn replied(frame: &[u8], reply: &[u8], changed: bool) -> Held {
    let sealed = opened(reply).is_some() && reply[0] == frame[0];
    hold(sealed && (5..=255).contains(&reply.len()), "a reply of the station, with its CRC")?;
    hold(reply[1] & 0x7F == frame[1] & 0x7F, "a reply of the function")?;
    let writes = matches!(reply[1], 5 | 6 | 15 | 16);
    hold(writes || !changed, "reads and exceptions change nothing")
}

/// The same request to all: done where the own station would have done it.
fn broadcast(own: u32, frame: &[u8], before: &Memory, after: &Memory) -> Held {
    let mut to_all = frame.to_vec();
    to_all[0] = 0;
    let mut memory = before.clone();
    let (answered, reply) = asked(own, &resealed(&to_all), &mut memory, 256);
    let silent = answered == Ok(Answer::Silent) && reply == [0xA5; 256];
    hold(silent && memory == *after, "a broadcast does what the request does, silently")
}

fn wrongly_lent(rng: &mut Rng, own: u32, frame: &[u8], before: &Memory) -> Held {
    let mut memory = before.clone();
    let (own, buffer, number) = match rng.below(4) {
        0 => (0, 256, 16),
        1 => (rng.pick(&[248, own + 256, u32::MAX]), 300, 16),
        2 => (own, rng.below(256) as usize, 16),
        _ => {
            memory.m.truncate(rng.below(250) as usize);
            (rng.pick(&[0, own]), rng.pick(&[0, 256]), 9)
        }
    };
    let lent = memory.clone();
    let (answered, reply) = asked(own, frame, &mut memory, buffer);
    let refused = answered == Err(Refusal::new(number, 0));
    hold(refused && memory == lent, "9 and 16, changing nothing")?;
    hold(reply.iter().all(|&byte| byte == 0xA5), "a refusal writes no reply")
}

pub fn round(rng: &mut Rng, before: &Memory, tally: &mut Tally) -> Held {
    let case = random_request(rng);
    let (own, frame) = (case.own, case.frame);
    tally.requests += 1;
    wrongly_lent(rng, own, &frame, before)?;
    let mut memory = before.clone();
    let (answered, reply) = asked(own, &frame, &mut memory, case.buffer as usize);
    let work = WORK_START as usize..;
    hold(memory.d[work.clone()] == before.d[work], "no request changes WORK")?;
    let Ok(Answer::Reply(length)) = answered else {
        let to_all = frame.first() == Some(&0);
        let unchanged = to_all || memory == *before;
        let unsent = reply.iter().all(|&byte| byte == 0xA5);
        return hold(answered == Ok(Answer::Silent) && unchanged && unsent, "silence");
    };
    tally.replies += 1;
    replied(&frame, &reply[..length], memory != *before)?;
    hold(reply[length..].iter().all(|&byte| byte == 0xA5), "bytes past the reply stay")?;
    broadcast(own, &frame, before, &memory)
}
