// The calls on the halves with their C interface, on the simulator: a part of
// the stub library, to build and try halves.rs.

use crate::board::{AUCTION, COMMON};
use crate::calls::Calls;
use crate::calls_sim::Simulator;
use crate::{given, lent};

#[no_mangle]
pub unsafe extern "C" fn concur_call_read(bytes: *const u8, length: usize, n: u32, fields: *mut u32, fields_words: usize) -> u32 {
    Simulator::read(given(bytes, length), n, lent(fields, fields_words))
}

#[no_mangle]
pub unsafe extern "C" fn concur_call_write(fields: *const u32, fields_words: usize, n: u32, out: *mut u8, out_length: usize, written: *mut u32, written_words: usize) -> u32 {
    Simulator::write(given(fields, fields_words), n, lent(out, out_length), lent(written, written_words))
}

#[no_mangle]
pub unsafe extern "C" fn concur_call_member_begin(
    block: *mut u32, words: usize, n: u32, member: u32, slot: u32, op_type: u32, value: *const u32, value_words: usize,
) -> u32 {
    Simulator::begin(COMMON, lent(block, words), n, member, slot, op_type, given(value, value_words))
}

#[no_mangle]
pub unsafe extern "C" fn concur_call_member_auction_begin(
    block: *mut u32, words: usize, n: u32, member: u32, slot: u32, op_type: u32, value: *const u32, value_words: usize,
) -> u32 {
    Simulator::begin(AUCTION, lent(block, words), n, member, slot, op_type, given(value, value_words))
}

#[no_mangle]
pub unsafe extern "C" fn concur_call_member_reply(block: *mut u32, words: usize, n: u32, member: u32, records: *const u32, records_words: usize, seals: u32, pairs: *mut u32, pairs_words: usize) -> u32 {
    Simulator::reply(lent(block, words), n, member, given(records, records_words), seals, lent(pairs, pairs_words))
}

#[no_mangle]
pub unsafe extern "C" fn concur_call_member_outcome(block: *mut u32, words: usize, n: u32, member: u32, outcome: u32, returned: *mut u32, returned_words: usize) -> u32 {
    Simulator::outcome(lent(block, words), n, member, outcome, lent(returned, returned_words))
}

#[no_mangle]
pub unsafe extern "C" fn concur_call_member_crash(block: *mut u32, words: usize, n: u32, member: u32) -> u32 {
    Simulator::crash(lent(block, words), n, member)
}

#[no_mangle]
pub unsafe extern "C" fn concur_call_host_submit(entries: *mut u32, words: usize, n: u32, member: u32, slot: u32, op_type: u32, count: u32, records: *mut u32, records_words: usize) -> u32 {
    Simulator::submit(lent(entries, words), n, member, slot, op_type, count, lent(records, records_words))
}

#[no_mangle]
pub unsafe extern "C" fn concur_call_host_commit(entries: *mut u32, words: usize, n: u32, record: *const u32, record_words: usize, outcome: *mut u32, outcome_words: usize) -> u32 {
    Simulator::commit(lent(entries, words), n, given(record, record_words), lent(outcome, outcome_words))
}
