//! Cases of the Modbus slave.

use super::bytes::{Reader, Writer};
use super::checksum::checksum;
use super::exchanges::table;
use super::memories::{fill, KEPT, PATTERN};
use crate::modbus::{answer, Answer};
use crate::refusal::Refusal;

/// Kinds of answers.
pub const REFUSED: u32 = 0;
pub const SILENT: u32 = 1;
pub const REPLY: u32 = 2;

/// The most that a case lends of each part, and the longest frame.
const MOST_BYTES: u32 = 512;
const MOST_WORDS: u32 = 8192;

/// The tables from case to case, each of its right size.
#[derive(Clone, PartialEq, Eq, Debug, Default)]
pub struct Tables {
    pub m: Vec<u8>,
    pub d: Vec<i16>,
}

/// What a case asks.
#[derive(Clone, PartialEq, Eq, Debug)]
pub struct Asked {
    pub rule: u32,
    pub seed: u32,
    /// Bytes of M and words of D that are lent: 250 and 8,000, or a wrong number.
    pub m_bytes: u32,
    pub d_words: u32,
    pub own: u32,
    /// Bytes of the reply buffer.
    pub buffer: u32,
    pub frame: Vec<u8>,
}

#[derive(Clone, PartialEq, Eq, Debug)]
pub struct RequestCase {
    pub asked: Asked,
    pub refusal: u32,
    pub kind: u32,
    pub length: u32,
    /// Of the bytes of M that are lent, and of the whole reply buffer, after the call.
    pub checksums: [u32; 2],
    /// The words of D that the call changed, with what they are after it.
    pub changes: Vec<(u16, i16)>,
    /// The reply itself, which is not in the file.
    pub reply: Vec<u8>,
}

fn numbers(answered: Result<Answer, Refusal>) -> (u32, u32, u32) {
    match answered {
        Err(refusal) => (refusal.number, REFUSED, 0),
        Ok(Answer::Silent) => (0, SILENT, 0),
        Ok(Answer::Reply(length)) => (0, REPLY, length as u32),
    }
}

fn changes(before: &[i16], after: &[i16]) -> Vec<(u16, i16)> {
    let words = (0..).zip(before.iter().zip(after));
    words.filter(|(_, (old, new))| old != new).map(|(at, (_, new))| (at, *new)).collect()
}

impl Asked {
    /// The tables before the call; `kept` are those that the case before left.
    fn tables(&self, kept: &Tables) -> Tables {
        match self.rule {
            KEPT => kept.clone(),
            rule => Tables { m: fill(rule, self.seed, 250, 0), d: table(rule, self.seed, 8000) },
        }
    }
}

impl RequestCase {
    pub fn solve(asked: Asked, kept: &mut Tables) -> RequestCase {
        *kept = asked.tables(kept);
        let mut lent = kept.clone();
        lent.m.resize(asked.m_bytes as usize, 0);
        lent.d.resize(asked.d_words as usize, 0);
        let before = lent.d.clone();
        let mut reply = fill(PATTERN, asked.seed, asked.buffer as usize, 0);
        let answered = answer(asked.own, &asked.frame, &mut lent.m, &mut lent.d, &mut reply);
        let (refusal, kind, length) = numbers(answered);
        let checksums = [checksum(&lent.m), checksum(&reply)];
        let changes = changes(&before, &lent.d);
        // Tables of wrong sizes come back as they were lent.
        if kind != REFUSED {
            *kept = lent;
        }
        reply.truncate(length as usize);
        RequestCase { asked, refusal, kind, length, checksums, changes, reply }
    }

    pub fn write(&self, out: &mut Writer) {
        let a = &self.asked;
        let length = a.frame.len() as u32;
        for value in [a.rule, a.seed, a.m_bytes, a.d_words, a.own, a.buffer, length] {
            out.u32(value);
        }
        out.all(&a.frame);
        for value in [self.refusal, self.kind, self.length] {
            out.u32(value);
        }
        self.checksums.iter().for_each(|&sum| out.u32(sum));
        out.u16(self.changes.len() as u16);
        for &(at, word) in &self.changes {
            out.u16(at);
            out.u16(word as u16);
        }
    }

    /// The case as the file has it. Only what follows from these is left out, the reply.
    pub fn read(from: &mut Reader) -> Option<RequestCase> {
        let (rule, seed, m_bytes, d_words) = (from.u32()?, from.u32()?, from.u32()?, from.u32()?);
        let (own, buffer, length) = (from.u32()?, from.u32()?, from.u32()?);
        if m_bytes.max(buffer).max(length) > MOST_BYTES || d_words > MOST_WORDS {
            return None;
        }
        let frame = from.all(length as usize)?.to_vec();
        let asked = Asked { rule, seed, m_bytes, d_words, own, buffer, frame };
        let (refusal, kind, length) = (from.u32()?, from.u32()?, from.u32()?);
        let checksums = [from.u32()?, from.u32()?];
        let mut changes = Vec::new();
        for _ in 0..from.u16()? {
            changes.push((from.u16()?, from.u16()? as i16));
        }
        let reply = Vec::new();
        Some(RequestCase { asked, refusal, kind, length, checksums, changes, reply })
    }

    /// The same with another reply: to compare what a file has with what is made again.
    pub fn with_reply(self, reply: Vec<u8>) -> RequestCase {
        RequestCase { reply, ..self }
    }

    /// Function and exception code of a reply; the code is 0 where there is no exception.
    pub fn told(&self) -> Option<(u8, u8)> {
        match self.reply[..] {
            [_, function @ 128..=255, code, _, _] => Some((function, code)),
            [_, function, ..] => Some((function, 0)),
            _ => None,
        }
    }
}
