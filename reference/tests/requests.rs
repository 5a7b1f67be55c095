//! Requests as the public documents and examples print them, and answers worked out by hand.

use ninhalto_reference::memory::{put_bit, Memory};
use ninhalto_reference::modbus::crc::{opened, sealed};
use ninhalto_reference::modbus::{answer, Answer};

fn bytes(text: &str) -> Vec<u8> {
    let byte = |digits: &str| u8::from_str_radix(digits, 16).expect("two digits");
    text.split_whitespace().map(byte).collect()
}

/// What a station answers; nothing if it is silent. Bytes past the reply must stay.
fn told(own: u32, frame: &[u8], memory: &mut Memory) -> Vec<u8> {
    let mut reply = vec![0xA5; 300];
    let (m, d) = (&mut memory.m, &mut memory.d);
    let length = match answer(own, frame, m, d, &mut reply).expect("rightly lent") {
        Answer::Silent => 0,
        Answer::Reply(length) => length,
    };
    assert!(reply[length..].iter().all(|&byte| byte == 0xA5));
    reply.truncate(length);
    reply
}

fn answers(request: &str, reply: &str, memory: &mut Memory) {
    let request = bytes(request);
    assert_eq!(told(u32::from(request[0]), &request, memory), bytes(reply));
}

#[test]
fn published_sums() {
    let published = [
        "11 03 00 6B 00 03 76 87",
        "11 03 06 AE 41 56 52 43 40 49 AD",
        "11 01 00 13 00 25 0E 84",
        "11 01 05 CD 6B B2 0E 1B 45 E6",
        "11 05 00 AC FF 00 4E 8B",
        "11 06 00 01 00 03 9A 9B",
        "11 0F 00 13 00 0A 02 CD 01 BF 0B",
        "11 0F 00 13 00 0A 26 99",
        "11 10 00 01 00 02 04 00 0A 01 02 C6 F0",
        "11 10 00 01 00 02 12 98",
        "0A 01 04 A1 00 01 AC 63",
        "0A 81 02 B0 53",
    ];
    for text in published {
        assert!(opened(&bytes(text)).is_some(), "{text}");
    }
}

#[test]
fn published_reads() {
    let mut memory = Memory::zero();
    // Coils 20 to 56 of the example, CD 6B B2 0E 1B: coil 20 is number 19, 13 in hexadecimal.
    for (place, byte) in [0xCDu8, 0x6B, 0xB2, 0x0E, 0x1B].into_iter().enumerate() {
        for bit in 0..8 {
            put_bit(&mut memory.m, 19 + 8 * place as u32 + bit, byte >> bit & 1 == 1);
        }
    }
    // Behind the last one asked for, a coil that is on must not be told.
    put_bit(&mut memory.m, 19 + 37, true);
    answers("11 01 00 13 00 25 0E 84", "11 01 05 CD 6B B2 0E 1B 45 E6", &mut memory);
    let words = [0xAE41u16, 0x5652, 0x4340].map(|word| word as i16);
    memory.d[0x6B..0x6E].copy_from_slice(&words);
    answers("11 03 00 6B 00 03 76 87", "11 03 06 AE 41 56 52 43 40 49 AD", &mut memory);
}

#[test]
fn published_writes() {
    let mut memory = Memory::zero();
    let mut wanted = Memory::zero();
    answers("11 05 00 AC FF 00 4E 8B", "11 05 00 AC FF 00 4E 8B", &mut memory);
    put_bit(&mut wanted.m, 172, true);
    assert_eq!(memory, wanted);
    answers("11 06 00 01 00 03 9A 9B", "11 06 00 01 00 03 9A 9B", &mut memory);
    wanted.d[1] = 3;
    assert_eq!(memory, wanted);
    answers("11 0F 00 13 00 0A 02 CD 01 BF 0B", "11 0F 00 13 00 0A 26 99", &mut memory);
    // CD: coils 27 to 20 are 1100 1101; 01: coils 29 and 28 are 0 and 1.
    for number in [19, 21, 22, 25, 26, 27] {
        put_bit(&mut wanted.m, number, true);
    }
    assert_eq!(memory, wanted);
    answers("11 10 00 01 00 02 04 00 0A 01 02 C6 F0", "11 10 00 01 00 02 12 98", &mut memory);
    (wanted.d[1], wanted.d[2]) = (0x000A, 0x0102);
    assert_eq!(memory, wanted);
}

/// A body for station 17, and the body of its answer.
fn exchange(body: &str, reply: &str, memory: &mut Memory) {
    let request = sealed(bytes(&format!("11 {body}")));
    let wanted = match reply {
        "" => Vec::new(),
        _ => sealed(bytes(&format!("11 {reply}"))),
    };
    assert_eq!(told(17, &request, memory), wanted, "{body}");
}

#[test]
fn exceptions() {
    let mut memory = Memory::zero();
    let memory = &mut memory;
    exchange("02 00 00 00 01", "82 01", memory);
    exchange("00", "80 01", memory);
    exchange("83 00 00 00 01", "83 01", memory);
    exchange("01 FF FF 00 00", "81 03", memory);
    exchange("01 07 CF 00 02", "81 02", memory);
    exchange("03 1F 3F 00 02", "83 02", memory);
    exchange("03 00 00 00 7E", "83 03", memory);
    exchange("05 00 00 00 01", "85 03", memory);
    exchange("05 07 D0 FF 00", "85 02", memory);
    exchange("06 1E DC 00 00", "86 02", memory);
    exchange("0F 00 00 00 09 01 FF", "8F 03", memory);
    exchange("0F 07 CF 00 02 01 FF", "8F 02", memory);
    exchange("10 1E DB 00 02 04 00 01 00 02", "90 02", memory);
    exchange("10 00 00 00 00 00", "90 03", memory);
    // A length that its function can't have.
    exchange("01 00 00 00 01 00", "", memory);
    exchange("0F 00 00 00 09 02 FF", "", memory);
    assert_eq!(*memory, Memory::zero());
    exchange("03 1F 3F 00 01", "03 02 00 00", memory);
    exchange("06 1E DB 80 00", "06 1E DB 80 00", memory);
    assert_eq!(memory.d[7899], -32768);
}

#[test]
fn broadcasts() {
    let mut memory = Memory::zero();
    for body in
        ["05 00 00 FF 01", "06 1E DC 00 07", "01 00 00 00 01", "2B 00", "0F 07 CF 00 02 01 03"]
    {
        let frame = sealed(bytes(&format!("00 {body}")));
        assert!(told(17, &frame, &mut memory).is_empty());
        assert_eq!(memory, Memory::zero(), "{body}");
    }
    let frame = sealed(bytes("00 06 00 05 12 34"));
    assert!(told(17, &frame, &mut memory).is_empty());
    assert_eq!(memory.d[5], 0x1234);
}

#[test]
fn longest() {
    let mut memory = Memory::zero();
    assert_eq!(told(1, &sealed(bytes("01 01 00 00 07 D0")), &mut memory).len(), 255);
    assert_eq!(told(1, &sealed(bytes("01 03 00 00 00 7D")), &mut memory).len(), 255);
    // 16 with a byte count of 255 is 264 bytes long, and no quantity's.
    let mut frame = bytes("01 10 00 00 00 7B FF");
    frame.resize(7 + 255, 9);
    assert_eq!(told(1, &sealed(frame), &mut memory), sealed(bytes("01 90 03")));
}

#[test]
fn refusals() {
    let frame = sealed(bytes("01 06 00 05 12 34"));
    let refused = |own: u32, m: usize, d: usize, buffer: usize| {
        let (mut m, mut d) = (vec![0; m], vec![0; d]);
        let done = answer(own, &frame, &mut m, &mut d, &mut vec![0; buffer]);
        assert!(done.is_ok() || d.iter().all(|&word| word == 0));
        done.err().map_or(0, |refusal| refusal.number)
    };
    assert_eq!(refused(1, 250, 8000, 256), 0);
    assert_eq!(refused(247, 250, 8000, 300), 0);
    assert_eq!(refused(0, 250, 8000, 256), 16);
    assert_eq!(refused(248, 250, 8000, 256), 16);
    assert_eq!(refused(257, 250, 8000, 256), 16);
    assert_eq!(refused(1, 250, 8000, 255), 16);
    assert_eq!(refused(0, 249, 8000, 0), 9);
    assert_eq!(refused(0, 250, 8001, 0), 9);
}
