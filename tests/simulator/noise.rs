// Any words in the parts of a record or of a message's fields that nobody may
// look at: counts that a board of n has not, and what a kind does not use.

use crate::board::Record;
use crate::flat::*;
use crate::messages::Message;
use crate::rng::Rng;

fn fill_unused(rng: &mut Rng, record: &mut [u32], n: u32) {
    let turn = rng.below(3);
    for row in 0..12 {
        for column in 0..12 {
            if row >= n as usize || column >= n as usize {
                record[count_place(row, column)] = match turn {
                    0 => 0,
                    1 => u32::MAX,
                    _ => rng.word(),
                };
            }
        }
    }
}

/// A record's words as they are handed in.
pub fn noisy_record(rng: &mut Rng, record: &Record, n: u32) -> Vec<u32> {
    let mut words = record_to_words(record);
    fill_unused(rng, &mut words, n);
    words
}

/// A reply's records as they are handed in.
pub fn noisy_records(rng: &mut Rng, newest: &Record, stored: &Record, n: u32) -> Vec<u32> {
    [noisy_record(rng, newest, n), noisy_record(rng, stored, n)].concat()
}

/// A message's fields as they are handed in.
pub fn noisy_fields(rng: &mut Rng, message: &Message, n: u32) -> Vec<u32> {
    let clean = message_to_fields(message);
    let mut fields: Vec<u32> = (0..FIELDS).map(|_| if rng.once_in(4) { rng.between(0, 3) } else { rng.word() }).collect();
    let used = match message {
        Message::Submit(_) => 1..5,
        Message::Reply { .. } => NEWEST..FIELDS,
        Message::Commit(_) => NEWEST..STORED,
        Message::Outcome(_) => 5..6,
    };
    fields[0] = clean[0];
    fields[used.clone()].copy_from_slice(&clean[used.clone()]);
    for start in [NEWEST, STORED] {
        if used.contains(&start) {
            fill_unused(rng, &mut fields[start..start + RECORD], n);
        }
    }
    fields
}
