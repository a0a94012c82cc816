// Messages in plain Rust: the same structs, the same checks in the same order, as one would write them without proofs.

pub const SUBMIT: u32 = 1;
pub const REPLY: u32 = 2;
pub const COMMIT: u32 = 3;
pub const OUTCOME: u32 = 4;

const LONGEST: usize = 12;

#[derive(Clone, Copy, Default)]
#[repr(C)]
pub struct Row {
    pub counts: [u32; LONGEST],
}

#[derive(Clone, Copy, Default)]
#[repr(C)]
pub struct Record {
    pub member: u32,
    pub slot: u32,
    pub operation: u32,
    pub count: u32,
    pub value: [u32; 8],
    pub matrix: [Row; LONGEST],
}

#[derive(Clone, Copy, Default)]
#[repr(C)]
pub struct Message {
    #[allow(dead_code)]
    pub number: u32,
    pub kind: u32,
    pub member: u32,
    pub slot: u32,
    pub operation: u32,
    pub count: u32,
    pub outcome: u32,
    pub newest: Record,
    pub stored: Record,
}

fn length_of(kind: u32, n: u32) -> usize {
    let squares = (n * n) as usize;
    match kind {
        SUBMIT => 9,
        REPLY => 81 + 8 * squares,
        COMMIT => 42 + 4 * squares,
        _ => 3,
    }
}

fn fits(member: u32, slot: u32, operation: u32, n: u32) -> bool {
    (1..=n).contains(&member) && (1..=n).contains(&slot) && (1..=2).contains(&operation)
}

fn fits_at(bytes: &[u8], at: usize, n: u32) -> bool {
    fits(bytes[at] as u32, bytes[at + 1] as u32, bytes[at + 2] as u32, n)
}

fn stored_at(n: u32) -> usize {
    44 + 4 * (n * n) as usize
}

pub fn check(bytes: &[u8], n: u32) -> u32 {
    if !(1..=12).contains(&n) {
        return 1;
    }
    if bytes.len() < 4 || u16::from_be_bytes([bytes[0], bytes[1]]) as usize != bytes.len() - 2 {
        return 12;
    }
    if bytes[2] != 1 {
        return 13;
    }
    let kind = bytes[3] as u32;
    if !(1..=4).contains(&kind) {
        return 14;
    }
    if bytes.len() - 2 != length_of(kind, n) {
        return 15;
    }
    let good = match kind {
        SUBMIT => fits_at(bytes, 4, n),
        REPLY => bytes[4] as u32 == n && fits_at(bytes, 5, n) && fits_at(bytes, stored_at(n), n),
        COMMIT => bytes[4] as u32 == n && fits_at(bytes, 5, n),
        _ => bytes[4] == 1 || bytes[4] == 2,
    };
    if good { 0 } else { 15 }
}

fn number_at(bytes: &[u8], at: usize) -> u32 {
    u32::from_be_bytes(bytes[at..at + 4].try_into().unwrap())
}

fn read_record(bytes: &[u8], at: usize, n: usize) -> Record {
    let mut r = Record {
        member: bytes[at] as u32,
        slot: bytes[at + 1] as u32,
        operation: bytes[at + 2] as u32,
        count: number_at(bytes, at + 3),
        ..Record::default()
    };
    for i in 0..8 {
        r.value[i] = number_at(bytes, at + 7 + 4 * i);
    }
    for j in 0..n {
        for k in 0..n {
            r.matrix[j].counts[k] = number_at(bytes, at + 39 + 4 * (j * n + k));
        }
    }
    r
}

#[inline(never)]
pub fn read(bytes: &[u8], n: u32) -> Message {
    let number = check(bytes, n);
    if number != 0 {
        return Message { number, ..Message::default() };
    }
    let mut m = Message { kind: bytes[3] as u32, ..Message::default() };
    match m.kind {
        SUBMIT => {
            m.member = bytes[4] as u32;
            m.slot = bytes[5] as u32;
            m.operation = bytes[6] as u32;
            m.count = number_at(bytes, 7);
        }
        REPLY => {
            m.newest = read_record(bytes, 5, n as usize);
            m.stored = read_record(bytes, stored_at(n), n as usize);
        }
        COMMIT => m.newest = read_record(bytes, 5, n as usize),
        _ => m.outcome = bytes[4] as u32,
    }
    m
}

fn put_number(out: &mut [u8], at: usize, x: u32) {
    out[at..at + 4].copy_from_slice(&x.to_be_bytes());
}

fn write_record(out: &mut [u8], at: usize, n: usize, r: &Record) {
    out[at] = r.member as u8;
    out[at + 1] = r.slot as u8;
    out[at + 2] = r.operation as u8;
    put_number(out, at + 3, r.count);
    for i in 0..8 {
        put_number(out, at + 7 + 4 * i, r.value[i]);
    }
    for j in 0..n {
        for k in 0..n {
            put_number(out, at + 39 + 4 * (j * n + k), r.matrix[j].counts[k]);
        }
    }
}

fn record_fits(r: &Record, n: u32) -> bool {
    fits(r.member, r.slot, r.operation, n)
}

/// The number, and how many bytes were written.
#[inline(never)]
pub fn write(m: Message, n: u32, out: &mut [u8]) -> (u32, usize) {
    if !(1..=12).contains(&n) {
        return (1, 0);
    }
    let good = match m.kind {
        SUBMIT => fits(m.member, m.slot, m.operation, n),
        REPLY => record_fits(&m.newest, n) && record_fits(&m.stored, n),
        COMMIT => record_fits(&m.newest, n),
        OUTCOME => (1..=2).contains(&m.outcome),
        _ => false,
    };
    if !good {
        return (15, 0);
    }
    let length = length_of(m.kind, n);
    if out.len() < length + 2 {
        return (16, 0);
    }
    out[..2].copy_from_slice(&(length as u16).to_be_bytes());
    out[2] = 1;
    out[3] = m.kind as u8;
    match m.kind {
        SUBMIT => {
            out[4] = m.member as u8;
            out[5] = m.slot as u8;
            out[6] = m.operation as u8;
            put_number(out, 7, m.count);
        }
        REPLY => {
            out[4] = n as u8;
            write_record(out, 5, n as usize, &m.newest);
            write_record(out, stored_at(n), n as usize, &m.stored);
        }
        COMMIT => {
            out[4] = n as u8;
            write_record(out, 5, n as usize, &m.newest);
        }
        _ => out[4] = m.outcome as u8,
    }
    (0, length + 2)
}

/// The same through C's calling convention, in which a struct by value is copied for each call. Rust's own lends the caller's one where it
/// sees that nothing changes it.
#[inline(never)]
pub extern "C" fn write_copied(m: Message, n: u32, out: *mut u8, room: usize) -> u32 {
    write(m, n, unsafe { std::slice::from_raw_parts_mut(out, room) }).0
}
