//! The functions of libhost.a (include/ninhalto.h) as safe ones: borrows say what overlaps, and slices are never null.

/// The memory of a controller.
#[derive(Clone, PartialEq)]
pub struct Memory {
    pub x: [u8; 32],
    pub y: [u8; 32],
    pub m: [u8; 250],
    pub sm: [u8; 32],
    pub t: [u8; 32],
    pub d: [i16; 8000],
    pub tv: [i16; 256],
    /// The leftovers: milliseconds of the 10 ms timers, 0 to 9, then of the 100 ms timers, 0 to 99.
    pub rest: [u8; 2],
}

/// The number of a refusal and its record.
#[derive(Debug)]
pub struct Refusal {
    pub number: usize,
    pub record: usize,
}

/// Seven numbers: refusal, record; 1 ended, 2 watchdog; steps, record stopped at, first error, its record.
pub type Told = [usize; 7];

pub struct UseMap {
    pub read: [u8; 1000],
    pub written: [u8; 1000],
}

/// A unit's declaration of a block of D words.
#[repr(C)]
pub struct Declaration {
    pub unit: u32,
    pub name: [u8; 8],
    pub start: u32,
    pub length: u32,
}

extern "C" {
    fn ninhalto_check(
        f: *const u8,
        size: usize,
        number: &mut usize,
        at: &mut usize,
        records: &mut usize,
        steps: &mut usize,
    );
    fn ninhalto_scan(
        f: *const u8,
        size: usize,
        x: *const u8,
        x_size: usize,
        y: *mut u8,
        y_size: usize,
        m: *mut u8,
        m_size: usize,
        sm: *mut u8,
        sm_size: usize,
        t: *mut u8,
        t_size: usize,
        d: *mut i16,
        d_size: usize,
        tv: *mut i16,
        tv_size: usize,
        rest: *mut u8,
        rest_size: usize,
        elapsed: u32,
        budget: u32,
        told: &mut Told,
    );
    fn ninhalto_map(
        f: *const u8,
        size: usize,
        number: &mut usize,
        at: &mut usize,
        read: &mut [u8; 1000],
        written: &mut [u8; 1000],
    );
    fn ninhalto_move(
        f: *mut u8,
        size: usize,
        start: u32,
        length: u32,
        from: u32,
        end: u32,
        number: &mut usize,
        at: &mut usize,
        place: &mut usize,
    );
    fn ninhalto_exchange(
        d: *mut i16,
        size: usize,
        start: u32,
        length: u32,
        place: u32,
        number: &mut usize,
        at: &mut usize,
    );
    fn ninhalto_job(
        f: *mut u8,
        size: usize,
        d: *mut i16,
        d_size: usize,
        lines: *const [u32; 3],
        lines_size: usize,
        number: &mut usize,
        at: &mut usize,
        line: &mut usize,
        other: &mut usize,
    );
    fn ninhalto_answer(
        station: u32,
        f: *const u8,
        size: usize,
        m: *mut u8,
        m_size: usize,
        d: *mut i16,
        d_size: usize,
        reply: *mut u8,
        reply_size: usize,
        number: &mut usize,
        kind: &mut usize,
        length: &mut usize,
    );
    fn ninhalto_clashes(
        list: *const Declaration,
        list_size: usize,
        report: *mut [u32; 2],
        report_size: usize,
        number: &mut usize,
        count: &mut usize,
    );
    fn ninhalto_longer(
        one: *const u8,
        one_size: usize,
        two: *const u8,
        two_size: usize,
        text: &mut usize,
        size: &mut usize,
    );
}

fn unless_refused<T>(number: usize, record: usize, value: T) -> Result<T, Refusal> {
    if number == 0 {
        Ok(value)
    } else {
        Err(Refusal { number, record })
    }
}

/// The count of records, and the most steps that a scan can make.
pub fn check(file: &[u8]) -> Result<(usize, usize), Refusal> {
    let (mut number, mut at, mut records, mut steps) = (0, 0, 0, 0);
    unsafe {
        ninhalto_check(file.as_ptr(), file.len(), &mut number, &mut at, &mut records, &mut steps)
    }
    unless_refused(number, at, (records, steps))
}

/// Elapsed milliseconds, 0 to 10,000, and a budget of steps.
pub fn scan(file: &[u8], c: &mut Memory, elapsed: u32, budget: u32) -> Told {
    let mut told = [0; 7];
    unsafe {
        ninhalto_scan(
            file.as_ptr(),
            file.len(),
            c.x.as_ptr(),
            c.x.len(),
            c.y.as_mut_ptr(),
            c.y.len(),
            c.m.as_mut_ptr(),
            c.m.len(),
            c.sm.as_mut_ptr(),
            c.sm.len(),
            c.t.as_mut_ptr(),
            c.t.len(),
            c.d.as_mut_ptr(),
            c.d.len(),
            c.tv.as_mut_ptr(),
            c.tv.len(),
            c.rest.as_mut_ptr(),
            c.rest.len(),
            elapsed,
            budget,
            &mut told,
        )
    }
    told
}

pub fn use_map(file: &[u8]) -> Result<UseMap, Refusal> {
    let (mut number, mut at) = (0, 0);
    let mut map = UseMap { read: [0; 1000], written: [0; 1000] };
    unsafe {
        ninhalto_map(
            file.as_ptr(),
            file.len(),
            &mut number,
            &mut at,
            &mut map.read,
            &mut map.written,
        )
    }
    unless_refused(number, at, map)
}

/// Where the place begins; the file is changed where it is lent.
pub fn move_block(
    file: &mut [u8],
    start: u32,
    length: u32,
    from: u32,
    end: u32,
) -> Result<u32, Refusal> {
    let (mut number, mut at, mut place) = (0, 0, 0);
    unsafe {
        ninhalto_move(
            file.as_mut_ptr(),
            file.len(),
            start,
            length,
            from,
            end,
            &mut number,
            &mut at,
            &mut place,
        )
    }
    unless_refused(number, at, place as u32)
}

pub fn exchange(d: &mut [i16], start: u32, length: u32, place: u32) -> Result<(), Refusal> {
    let (mut number, mut at) = (0, 0);
    unsafe {
        ninhalto_exchange(d.as_mut_ptr(), d.len(), start, length, place, &mut number, &mut at)
    }
    unless_refused(number, at, ())
}

/// Several blocks, each to its own place: a line is start, length and place. File and table are changed where they are lent, together or not at all; a
/// table of no words is none. Which lines a refusal is told at is left out here.
pub fn job(file: &mut [u8], d: &mut [i16], lines: &[[u32; 3]]) -> Result<(), Refusal> {
    let (mut number, mut at, mut line, mut other) = (0, 0, 0, 0);
    unsafe {
        ninhalto_job(
            file.as_mut_ptr(),
            file.len(),
            d.as_mut_ptr(),
            d.len(),
            lines.as_ptr(),
            lines.len(),
            &mut number,
            &mut at,
            &mut line,
            &mut other,
        )
    }
    unless_refused(number, at, ())
}

/// The bytes of the reply to a Modbus request, at the start of the buffer; none where nothing is to be sent.
pub fn answer<'a>(
    station: u32,
    request: &[u8],
    m: &mut [u8],
    d: &mut [i16],
    reply: &'a mut [u8],
) -> Result<Option<&'a [u8]>, Refusal> {
    let (mut number, mut kind, mut length) = (0, 0, 0);
    unsafe {
        ninhalto_answer(
            station,
            request.as_ptr(),
            request.len(),
            m.as_mut_ptr(),
            m.len(),
            d.as_mut_ptr(),
            d.len(),
            reply.as_mut_ptr(),
            reply.len(),
            &mut number,
            &mut kind,
            &mut length,
        )
    }
    unless_refused(number, 0, if kind == 2 { Some(&reply[..length]) } else { None })
}

/// The clashes of a list as pairs of places, at the start of the report, which has 2,016 pairs at least.
pub fn clashes<'a>(
    list: &[Declaration],
    report: &'a mut [[u32; 2]],
) -> Result<&'a [[u32; 2]], Refusal> {
    let (mut number, mut count) = (0, 0);
    unsafe {
        ninhalto_clashes(
            list.as_ptr(),
            list.len(),
            report.as_mut_ptr(),
            report.len(),
            &mut number,
            &mut count,
        )
    }
    unless_refused(number, 0, &report[..count])
}

/// Whose first line holds the longer block, 1 or 2, and that line; none where either text is misspelt.
pub fn longer<'a>(one: &'a [u8], two: &'a [u8]) -> Option<(usize, &'a [u8])> {
    let (mut text, mut size) = (0, 0);
    unsafe {
        ninhalto_longer(one.as_ptr(), one.len(), two.as_ptr(), two.len(), &mut text, &mut size)
    }
    match text {
        1 => Some((1, &one[..size])),
        2 => Some((2, &two[..size])),
        _ => None,
    }
}
