//! The Modbus RTU slave: one frame is answered over the M and the D table. Written from the
//! public application protocol and serial line documents and from document 02.

mod coils;
pub mod crc;
pub mod request;

use crate::devices::D_WORDS;
use crate::refusal::Refusal;
use request::Request;

/// Bytes that a reply buffer has at least.
pub const BUFFER: usize = 256;
const BROADCAST: u8 = 0;
const EXCEPTION: u8 = 0x80;

#[derive(Clone, Copy, PartialEq, Eq, Debug)]
pub enum Answer {
    /// Nothing is sent; a broadcast may have been done.
    Silent,
    /// So many bytes of the reply buffer.
    Reply(usize),
}

fn lent(own: u32, m: &[u8], d: &[i16], reply: &[u8]) -> Result<u8, Refusal> {
    if m.len() != 250 || d.len() != D_WORDS as usize {
        return Err(Refusal::new(9, 0));
    }
    match u8::try_from(own) {
        Ok(station @ 1..=247) if reply.len() >= BUFFER => Ok(station),
        _ => Err(Refusal::new(16, 0)),
    }
}

/// Station and what it is told, of a frame with a length that it can have and a good CRC.
fn received(frame: &[u8]) -> Option<(u8, &[u8], Request<'_>)> {
    let (&station, told) = crc::opened(frame)?.split_first()?;
    Some((station, told, request::read(told)?))
}

fn broadcast(request: Request, m: &mut [u8], d: &mut [i16]) {
    if request.exception().is_none() {
        request.carry_out(m, d);
    }
}

fn replied(request: Request, told: &[u8], m: &mut [u8], d: &mut [i16]) -> Vec<u8> {
    match request.exception() {
        Some(code) => vec![told[0] | EXCEPTION, code],
        None => {
            request.carry_out(m, d);
            request.reply(told, m, d)
        }
    }
}

pub fn answer(
    own: u32,
    frame: &[u8],
    m: &mut [u8],
    d: &mut [i16],
    reply: &mut [u8],
) -> Result<Answer, Refusal> {
    let own = lent(own, m, d, reply)?;
    let Some((station, told, request)) = received(frame) else {
        return Ok(Answer::Silent);
    };
    if station == BROADCAST {
        broadcast(request, m, d);
        return Ok(Answer::Silent);
    }
    if station != own {
        return Ok(Answer::Silent);
    }
    let mut sent = vec![own];
    sent.extend(replied(request, told, m, d));
    let sent = crc::sealed(sent);
    reply[..sent.len()].copy_from_slice(&sent);
    Ok(Answer::Reply(sent.len()))
}
