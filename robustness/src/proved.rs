//! The functions of libhost.a (include/ninhalto.h), with the reference's types. Every lent part is guarded.

use crate::lent::Lent;
use ninhalto_reference::memory::Memory;
use ninhalto_reference::mover::{Block, Pool};

extern "C" {
    fn ninhalto_check(
        f: *const u8,
        size: usize,
        number: &mut usize,
        at: &mut usize,
        records: &mut usize,
        steps: &mut usize,
    );
    fn ninhalto_scan(
        f: *const u8,
        size: usize,
        x: *const u8,
        x_size: usize,
        y: *mut u8,
        y_size: usize,
        m: *mut u8,
        m_size: usize,
        sm: *mut u8,
        sm_size: usize,
        t: *mut u8,
        t_size: usize,
        d: *mut i16,
        d_size: usize,
        tv: *mut i16,
        tv_size: usize,
        rest: *mut u8,
        rest_size: usize,
        elapsed: u32,
        budget: u32,
        told: *mut usize,
    );
    fn ninhalto_scan_unbudgeted(
        f: *const u8,
        size: usize,
        x: *const u8,
        x_size: usize,
        y: *mut u8,
        y_size: usize,
        m: *mut u8,
        m_size: usize,
        sm: *mut u8,
        sm_size: usize,
        t: *mut u8,
        t_size: usize,
        d: *mut i16,
        d_size: usize,
        tv: *mut i16,
        tv_size: usize,
        rest: *mut u8,
        rest_size: usize,
        elapsed: u32,
        told: *mut usize,
    );
    fn ninhalto_map(
        f: *const u8,
        size: usize,
        number: &mut usize,
        at: &mut usize,
        read: *mut u8,
        written: *mut u8,
    );
    fn ninhalto_move(
        f: *mut u8,
        size: usize,
        start: u32,
        length: u32,
        from: u32,
        end: u32,
        number: &mut usize,
        at: &mut usize,
        place: &mut usize,
    );
    fn ninhalto_exchange(
        d: *mut i16,
        size: usize,
        start: u32,
        length: u32,
        place: u32,
        number: &mut usize,
        at: &mut usize,
    );
    fn ninhalto_job(
        f: *mut u8,
        size: usize,
        d: *mut i16,
        d_size: usize,
        lines: *const [u32; 3],
        lines_size: usize,
        number: &mut usize,
        at: &mut usize,
        line: &mut usize,
        other: &mut usize,
    );
    fn ninhalto_salvage(
        torn: *const u8,
        size: usize,
        out: *mut u8,
        out_size: usize,
        number: &mut usize,
        at: &mut usize,
        kept: &mut usize,
        added: &mut usize,
        rest: &mut usize,
    );
    fn ninhalto_answer(
        station: u32,
        f: *const u8,
        size: usize,
        m: *mut u8,
        m_size: usize,
        d: *mut i16,
        d_size: usize,
        reply: *mut u8,
        reply_size: usize,
        number: &mut usize,
        kind: &mut usize,
        length: &mut usize,
    );
}

/// What the numbers are before a call: none may be left.
const UNWRITTEN: usize = 0x5A5A_5A5A_5A5A;

fn held<T: Copy + PartialEq>(lent: &Lent<T>) -> Vec<T> {
    assert!(lent.guards_hold(), "written past the ends");
    lent.content().to_vec()
}

/// Refusal, record, records, steps.
pub fn check(file: &[u8]) -> [usize; 4] {
    let mut f = Lent::new(file, 0xC3);
    let [mut number, mut at, mut records, mut steps] = [UNWRITTEN; 4];
    unsafe { ninhalto_check(f.lend(), f.len(), &mut number, &mut at, &mut records, &mut steps) }
    assert!(held(&f) == file);
    [number, at, records, steps]
}

/// The seven numbers; without a budget the entry that takes none.
pub fn scan(file: &[u8], c: &mut Memory, elapsed: u32, budget: Option<u32>) -> [usize; 7] {
    let mut f = Lent::new(file, 0xC3);
    let [mut x, mut y, mut m, mut sm, mut t, mut rest] =
        [&c.x, &c.y, &c.m, &c.sm, &c.contacts, &c.rest].map(|table| Lent::new(table, 0xC3));
    let [mut d, mut tv] = [&c.d, &c.t].map(|table| Lent::new(table, 0x3C3C));
    let mut told = Lent::new(&[UNWRITTEN; 7], 77);
    unsafe {
        match budget {
            Some(budget) => ninhalto_scan(
                f.lend(),
                f.len(),
                x.lend(),
                x.len(),
                y.lend(),
                y.len(),
                m.lend(),
                m.len(),
                sm.lend(),
                sm.len(),
                t.lend(),
                t.len(),
                d.lend(),
                d.len(),
                tv.lend(),
                tv.len(),
                rest.lend(),
                rest.len(),
                elapsed,
                budget,
                told.lend(),
            ),
            None => ninhalto_scan_unbudgeted(
                f.lend(),
                f.len(),
                x.lend(),
                x.len(),
                y.lend(),
                y.len(),
                m.lend(),
                m.len(),
                sm.lend(),
                sm.len(),
                t.lend(),
                t.len(),
                d.lend(),
                d.len(),
                tv.lend(),
                tv.len(),
                rest.lend(),
                rest.len(),
                elapsed,
                told.lend(),
            ),
        }
    }
    assert!(held(&f) == file && held(&x) == c.x);
    *c = Memory {
        x: held(&x),
        y: held(&y),
        m: held(&m),
        sm: held(&sm),
        contacts: held(&t),
        d: held(&d),
        t: held(&tv),
        rest: held(&rest),
    };
    held(&told).try_into().unwrap()
}

/// Refusal, record, and the two maps.
pub fn use_map(file: &[u8]) -> ([usize; 2], Vec<u8>, Vec<u8>) {
    let mut f = Lent::new(file, 0xC3);
    let [mut number, mut at] = [UNWRITTEN; 2];
    let [mut read, mut written] = [0; 2].map(|_| Lent::new(&[0xA5; 1000], 0xC3));
    unsafe { ninhalto_map(f.lend(), f.len(), &mut number, &mut at, read.lend(), written.lend()) }
    assert!(held(&f) == file);
    ([number, at], held(&read), held(&written))
}

/// Refusal, record, place; and the file.
pub fn move_block(file: &[u8], block: Block, pool: Pool) -> ([usize; 3], Vec<u8>) {
    let mut f = Lent::new(file, 0xC3);
    let [mut number, mut at, mut place] = [UNWRITTEN; 3];
    unsafe {
        ninhalto_move(
            f.lend(),
            f.len(),
            block.start,
            block.length,
            pool.start,
            pool.end,
            &mut number,
            &mut at,
            &mut place,
        )
    }
    ([number, at, place], held(&f))
}

/// Refusal, record; and the table.
pub fn exchange(d: &[i16], block: Block, place: u32) -> ([usize; 2], Vec<i16>) {
    let mut lent = Lent::new(d, 0x3C3C);
    let [mut number, mut at] = [UNWRITTEN; 2];
    unsafe {
        ninhalto_exchange(
            lent.lend(),
            lent.len(),
            block.start,
            block.length,
            place,
            &mut number,
            &mut at,
        )
    }
    ([number, at], held(&lent))
}

/// Refusal, record, the lines told; the file and the table.
pub fn job(file: &[u8], d: &[i16], lines: &[[u32; 3]]) -> ([usize; 4], Vec<u8>, Vec<i16>) {
    let (mut f, mut table) = (Lent::new(file, 0xC3), Lent::new(d, 0x3C3C));
    let mut lent = Lent::new(lines, [0xC3C3_C3C3; 3]);
    let [mut number, mut at, mut line, mut other] = [UNWRITTEN; 4];
    unsafe {
        ninhalto_job(
            f.lend(),
            f.len(),
            table.lend(),
            table.len(),
            lent.lend(),
            lent.len(),
            &mut number,
            &mut at,
            &mut line,
            &mut other,
        )
    }
    assert!(held(&lent) == lines);
    ([number, at, line, other], held(&f), held(&table))
}

/// Refusal, record, records kept, END records added, bytes after those kept; and the output. Zeros stand behind the torn file: read with them, many a
/// record that is cut would be whole.
pub fn salvage(torn: &[u8], output: &[u8]) -> ([usize; 5], Vec<u8>) {
    let (mut f, mut out) = (Lent::new(torn, 0), Lent::new(output, 0xC3));
    let [mut number, mut at, mut kept, mut added, mut rest] = [UNWRITTEN; 5];
    unsafe {
        ninhalto_salvage(
            f.lend(),
            f.len(),
            out.lend(),
            out.len(),
            &mut number,
            &mut at,
            &mut kept,
            &mut added,
            &mut rest,
        )
    }
    assert!(held(&f) == torn);
    ([number, at, kept, added, rest], held(&out))
}

/// Refusal, kind and length; M, D and the reply buffer.
pub type Answered = ([usize; 3], Vec<u8>, Vec<i16>, Vec<u8>);

pub fn answer(station: u32, frame: &[u8], m: &[u8], d: &[i16], reply: &[u8]) -> Answered {
    let [mut f, mut m, mut reply] = [frame, m, reply].map(|part| Lent::new(part, 0xC3));
    let mut d = Lent::new(d, 0x3C3C);
    let [mut number, mut kind, mut length] = [UNWRITTEN; 3];
    unsafe {
        ninhalto_answer(
            station,
            f.lend(),
            f.len(),
            m.lend(),
            m.len(),
            d.lend(),
            d.len(),
            reply.lend(),
            reply.len(),
            &mut number,
            &mut kind,
            &mut length,
        )
    }
    assert!(held(&f) == frame);
    ([number, kind, length], held(&m), held(&d), held(&reply))
}
