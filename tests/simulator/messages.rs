// Messages on bytes: check, reader, writer (document 01, "Messages").
// Two bytes of length, version 1, kind, then the fields; all big-endian.

use crate::board::{in_range, n_is_good, record_fields_bad, zero_record, Record, Submit, ABORTED, ACCEPTED, READ, WRITE};

pub const SUBMIT: u8 = 1;
pub const REPLY: u8 = 2;
pub const COMMIT: u8 = 3;
pub const OUTCOME: u8 = 4;

#[derive(Clone, Debug, PartialEq, Eq)]
pub enum Message {
    Submit(Submit),
    Reply { newest: Record, stored: Record },
    Commit(Record),
    Outcome(u32),
}

/// The length field of a kind. The whole message has two bytes more.
pub fn length_field(kind: u8, n: u32) -> usize {
    let squares = n as usize * n as usize;
    match kind {
        SUBMIT => 9,
        REPLY => 81 + 8 * squares,
        COMMIT => 42 + 4 * squares,
        OUTCOME => 3,
        _ => panic!("no such kind"),
    }
}

fn number_at(bytes: &[u8], at: usize) -> u32 {
    let mut number: u32 = 0;
    for i in 0..4 {
        number = number * 256 + bytes[at + i] as u32;
    }
    number
}

fn record_length(n: u32) -> usize {
    3 + 4 + 32 + 4 * n as usize * n as usize
}

fn record_at(bytes: &[u8], at: usize, n: u32) -> Record {
    let mut record = zero_record(n);
    record.member = bytes[at] as u32;
    record.slot = bytes[at + 1] as u32;
    record.op_type = bytes[at + 2] as u32;
    record.count = number_at(bytes, at + 3);
    for i in 0..8 {
        record.sheet[i] = number_at(bytes, at + 7 + 4 * i);
    }
    let mut place = at + 39;
    for row in 0..n as usize {
        for column in 0..n as usize {
            record.matrix[row][column] = number_at(bytes, place);
            place += 4;
        }
    }
    record
}

fn three_bad(member: u32, slot: u32, op_type: u32, n: u32) -> bool {
    !in_range(member, n) || !in_range(slot, n) || (op_type != READ && op_type != WRITE)
}

/// The check: 0, or the number of the first ground that holds.
pub fn check(bytes: &[u8], n: u32) -> u32 {
    match read(bytes, n) {
        Ok(_) => 0,
        Err(number) => number,
    }
}

pub fn read(bytes: &[u8], n: u32) -> Result<Message, u32> {
    if !n_is_good(n) {
        return Err(1);
    }
    if bytes.len() < 4 {
        return Err(12);
    }
    let length = bytes[0] as usize * 256 + bytes[1] as usize;
    if length != bytes.len() - 2 {
        return Err(12);
    }
    if bytes[2] != 1 {
        return Err(13);
    }
    let kind = bytes[3];
    if kind < SUBMIT || kind > OUTCOME {
        return Err(14);
    }
    if length != length_field(kind, n) {
        return Err(15);
    }
    if kind == SUBMIT {
        let submit = Submit {
            member: bytes[4] as u32,
            slot: bytes[5] as u32,
            op_type: bytes[6] as u32,
            count: number_at(bytes, 7),
        };
        if three_bad(submit.member, submit.slot, submit.op_type, n) {
            return Err(15);
        }
        return Ok(Message::Submit(submit));
    }
    if kind == OUTCOME {
        let outcome = bytes[4] as u32;
        if outcome != ACCEPTED && outcome != ABORTED {
            return Err(15);
        }
        return Ok(Message::Outcome(outcome));
    }
    if bytes[4] as u32 != n {
        return Err(15);
    }
    let first = record_at(bytes, 5, n);
    if record_fields_bad(&first, n) {
        return Err(15);
    }
    if kind == COMMIT {
        return Ok(Message::Commit(first));
    }
    let second = record_at(bytes, 5 + record_length(n), n);
    if record_fields_bad(&second, n) {
        return Err(15);
    }
    Ok(Message::Reply { newest: first, stored: second })
}

fn put_number(number: u32, out: &mut Vec<u8>) {
    out.extend_from_slice(&number.to_be_bytes());
}

fn put_record(record: &Record, out: &mut Vec<u8>) {
    out.push(record.member as u8);
    out.push(record.slot as u8);
    out.push(record.op_type as u8);
    put_number(record.count, out);
    for word in record.sheet {
        put_number(word, out);
    }
    for row in &record.matrix {
        for count in row {
            put_number(*count, out);
        }
    }
}

/// Writes the message at the start of the output, gives the bytes written.
pub fn write(message: &Message, n: u32, output: &mut [u8]) -> Result<usize, u32> {
    if !n_is_good(n) {
        return Err(1);
    }
    let bad = match message {
        Message::Submit(s) => three_bad(s.member, s.slot, s.op_type, n),
        Message::Reply { newest, stored } => record_fields_bad(newest, n) || record_fields_bad(stored, n),
        Message::Commit(record) => record_fields_bad(record, n),
        Message::Outcome(outcome) => *outcome != ACCEPTED && *outcome != ABORTED,
    };
    if bad {
        return Err(15);
    }
    let mut body = vec![1u8];
    match message {
        Message::Submit(s) => {
            body.push(SUBMIT);
            body.push(s.member as u8);
            body.push(s.slot as u8);
            body.push(s.op_type as u8);
            put_number(s.count, &mut body);
        }
        Message::Reply { newest, stored } => {
            body.push(REPLY);
            body.push(n as u8);
            put_record(newest, &mut body);
            put_record(stored, &mut body);
        }
        Message::Commit(record) => {
            body.push(COMMIT);
            body.push(n as u8);
            put_record(record, &mut body);
        }
        Message::Outcome(outcome) => {
            body.push(OUTCOME);
            body.push(*outcome as u8);
        }
    }
    let whole = body.len() + 2;
    if output.len() < whole {
        return Err(16);
    }
    output[0] = (body.len() / 256) as u8;
    output[1] = (body.len() % 256) as u8;
    output[2..whole].copy_from_slice(&body);
    Ok(whole)
}
