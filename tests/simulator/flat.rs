// Records and messages as the words in which the calls on the halves hand
// them over. A record has twelve rows of twelve counts whatever n is; those
// that a board of n has not are zero on the way out and not read on the way in.

use crate::board::{zero_record, Record, Submit};
use crate::messages::Message;

pub const RECORD: usize = 4 + 8 + 12 * 12;
pub const RECORDS: usize = 2 * RECORD; // newest, stored
pub const FIELDS: usize = 6 + RECORDS; // kind, member, slot, type, count, outcome, newest, stored
pub const NEWEST: usize = 6;
pub const STORED: usize = NEWEST + RECORD;

/// The place of a count in a record's words; row and column start at 0.
pub fn count_place(row: usize, column: usize) -> usize {
    12 + 12 * row + column
}

pub fn record_to_words(record: &Record) -> Vec<u32> {
    let mut words = vec![0; RECORD];
    words[..4].copy_from_slice(&[record.member, record.slot, record.op_type, record.count]);
    words[4..12].copy_from_slice(&record.sheet);
    for (row, counts) in record.matrix.iter().enumerate() {
        for (column, count) in counts.iter().enumerate() {
            words[count_place(row, column)] = *count;
        }
    }
    words
}

pub fn record_from_words(words: &[u32], n: u32) -> Record {
    let mut record = zero_record(n);
    record.member = words[0];
    record.slot = words[1];
    record.op_type = words[2];
    record.count = words[3];
    record.sheet.copy_from_slice(&words[4..12]);
    for row in 0..n as usize {
        for column in 0..n as usize {
            record.matrix[row][column] = words[count_place(row, column)];
        }
    }
    record
}

pub fn records_to_words(newest: &Record, stored: &Record) -> Vec<u32> {
    [record_to_words(newest), record_to_words(stored)].concat()
}

/// What a kind does not use is zero; a commit's record stands as newest.
pub fn message_to_fields(message: &Message) -> Vec<u32> {
    let mut fields = vec![0; FIELDS];
    match message {
        Message::Submit(s) => fields[..5].copy_from_slice(&[1, s.member, s.slot, s.op_type, s.count]),
        Message::Reply { newest, stored } => {
            fields[0] = 2;
            fields[NEWEST..].copy_from_slice(&records_to_words(newest, stored));
        }
        Message::Commit(record) => {
            fields[0] = 3;
            fields[NEWEST..STORED].copy_from_slice(&record_to_words(record));
        }
        Message::Outcome(outcome) => {
            fields[0] = 4;
            fields[5] = *outcome;
        }
    }
    fields
}

/// None where the kind is not 1 to 4.
pub fn message_from_fields(fields: &[u32], n: u32) -> Option<Message> {
    let message = match fields[0] {
        1 => Message::Submit(Submit { member: fields[1], slot: fields[2], op_type: fields[3], count: fields[4] }),
        2 => Message::Reply { newest: record_from_words(&fields[NEWEST..], n), stored: record_from_words(&fields[STORED..], n) },
        3 => Message::Commit(record_from_words(&fields[NEWEST..], n)),
        4 => Message::Outcome(fields[5]),
        _ => return None,
    };
    Some(message)
}
