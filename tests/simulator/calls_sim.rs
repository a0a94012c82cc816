// What the calls on the halves must do, on the simulator. A length beside the
// block, the entries, the bytes or the output that is not the named one is
// number 2 before all else, and then the places for results stay as they were.

use crate::board::{self, n_is_good, Kind, Submit};
use crate::calls::Calls;
use crate::flat::*;
use crate::messages;

pub struct Simulator;

/// The number of an answer that is no more than a number.
fn number_of<T>(answer: Result<T, u32>) -> u32 {
    answer.err().unwrap_or(0)
}

impl Calls for Simulator {
    fn read(bytes: &[u8], n: u32, fields: &mut [u32]) -> u32 {
        if fields.len() != FIELDS {
            return 2;
        }
        fields.fill(0);
        let answer = messages::read(bytes, n);
        if let Ok(message) = &answer {
            fields.copy_from_slice(&message_to_fields(message));
        }
        number_of(answer)
    }

    fn write(fields: &[u32], n: u32, out: &mut [u8], written: &mut [u32]) -> u32 {
        if fields.len() != FIELDS || written.len() != 1 {
            return 2;
        }
        written[0] = 0;
        if !n_is_good(n) {
            return 1;
        }
        let message = match message_from_fields(fields, n) {
            Some(message) => message,
            None => return 15,
        };
        let answer = messages::write(&message, n, out);
        written[0] = answer.unwrap_or(0) as u32;
        number_of(answer)
    }

    fn begin(kind: Kind, block: &mut [u32], n: u32, member: u32, slot: u32, op_type: u32, value: &[u32]) -> u32 {
        match value.try_into() {
            Ok(sheet) => number_of(kind.half_begin(block, n, member, slot, op_type, &sheet)),
            Err(_) => 2,
        }
    }

    fn reply(block: &mut [u32], n: u32, member: u32, records: &[u32], seals: u32, pairs: &mut [u32]) -> u32 {
        if records.len() != RECORDS || pairs.len() != 1 {
            return 2;
        }
        pairs[0] = 0;
        if !n_is_good(n) {
            return 1;
        }
        let newest = record_from_words(records, n);
        let stored = record_from_words(&records[RECORD..], n);
        let answer = board::half_take_reply(block, n, member, seals, &newest, &stored);
        if let Ok(taken) = &answer {
            pairs[0] = taken.pairs;
        }
        number_of(answer)
    }

    fn outcome(block: &mut [u32], n: u32, member: u32, outcome: u32, returned: &mut [u32]) -> u32 {
        if returned.len() != 9 {
            return 2;
        }
        returned.fill(0);
        let answer = board::half_take_outcome(block, n, member, outcome);
        if let Some(sheet) = answer.returned {
            returned[0] = 1;
            returned[1..].copy_from_slice(&sheet);
        }
        answer.number
    }

    fn crash(block: &mut [u32], n: u32, member: u32) -> u32 {
        board::half_crash(block, n, member)
    }

    fn submit(entries: &mut [u32], n: u32, member: u32, slot: u32, op_type: u32, count: u32, records: &mut [u32]) -> u32 {
        if records.len() != RECORDS {
            return 2;
        }
        records.fill(0);
        let answer = board::host_submit(entries, n, &Submit { member, slot, op_type, count });
        if let Ok((newest, stored)) = &answer {
            records.copy_from_slice(&records_to_words(newest, stored));
        }
        number_of(answer)
    }

    fn commit(entries: &mut [u32], n: u32, record: &[u32], outcome: &mut [u32]) -> u32 {
        if record.len() != RECORD || outcome.len() != 1 {
            return 2;
        }
        outcome[0] = 0;
        if !n_is_good(n) {
            return 1;
        }
        let answer = board::host_commit(entries, n, &record_from_words(record, n));
        outcome[0] = answer.unwrap_or(0);
        number_of(answer)
    }
}
