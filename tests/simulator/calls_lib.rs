// The calls on the halves in the library under test.

use crate::board::{Kind, AUCTION, COMMON};
use crate::calls::Calls;

extern "C" {
    fn concur_call_read(bytes: *const u8, length: usize, n: u32, fields: *mut u32, fields_words: usize) -> u32;
    fn concur_call_write(fields: *const u32, fields_words: usize, n: u32, out: *mut u8, out_length: usize, written: *mut u32, written_words: usize) -> u32;
    fn concur_call_member_begin(
        block: *mut u32, words: usize, n: u32, member: u32, slot: u32, op_type: u32, value: *const u32, value_words: usize,
    ) -> u32;
    fn concur_call_member_auction_begin(
        block: *mut u32, words: usize, n: u32, member: u32, slot: u32, op_type: u32, value: *const u32, value_words: usize,
    ) -> u32;
    fn concur_call_member_reply(block: *mut u32, words: usize, n: u32, member: u32, records: *const u32, records_words: usize, seals: u32, pairs: *mut u32, pairs_words: usize) -> u32;
    fn concur_call_member_outcome(block: *mut u32, words: usize, n: u32, member: u32, outcome: u32, returned: *mut u32, returned_words: usize) -> u32;
    fn concur_call_member_crash(block: *mut u32, words: usize, n: u32, member: u32) -> u32;
    fn concur_call_host_submit(entries: *mut u32, words: usize, n: u32, member: u32, slot: u32, op_type: u32, count: u32, records: *mut u32, records_words: usize) -> u32;
    fn concur_call_host_commit(entries: *mut u32, words: usize, n: u32, record: *const u32, record_words: usize, outcome: *mut u32, outcome_words: usize) -> u32;
}

pub struct Library;

// The pointer of an empty slice is not null.
impl Calls for Library {
    fn read(bytes: &[u8], n: u32, fields: &mut [u32]) -> u32 {
        unsafe { concur_call_read(bytes.as_ptr(), bytes.len(), n, fields.as_mut_ptr(), fields.len()) }
    }

    fn write(fields: &[u32], n: u32, out: &mut [u8], written: &mut [u32]) -> u32 {
        unsafe { concur_call_write(fields.as_ptr(), fields.len(), n, out.as_mut_ptr(), out.len(), written.as_mut_ptr(), written.len()) }
    }

    fn begin(kind: Kind, block: &mut [u32], n: u32, member: u32, slot: u32, op_type: u32, value: &[u32]) -> u32 {
        let call = match kind {
            COMMON => concur_call_member_begin,
            AUCTION => concur_call_member_auction_begin,
            other => panic!("no call for {:?}", other),
        };
        unsafe { call(block.as_mut_ptr(), block.len(), n, member, slot, op_type, value.as_ptr(), value.len()) }
    }

    fn reply(block: &mut [u32], n: u32, member: u32, records: &[u32], seals: u32, pairs: &mut [u32]) -> u32 {
        let (block, words) = (block.as_mut_ptr(), block.len());
        let (pairs, pairs_words) = (pairs.as_mut_ptr(), pairs.len());
        unsafe { concur_call_member_reply(block, words, n, member, records.as_ptr(), records.len(), seals, pairs, pairs_words) }
    }

    fn outcome(block: &mut [u32], n: u32, member: u32, outcome: u32, returned: &mut [u32]) -> u32 {
        unsafe { concur_call_member_outcome(block.as_mut_ptr(), block.len(), n, member, outcome, returned.as_mut_ptr(), returned.len()) }
    }

    fn crash(block: &mut [u32], n: u32, member: u32) -> u32 {
        unsafe { concur_call_member_crash(block.as_mut_ptr(), block.len(), n, member) }
    }

    fn submit(entries: &mut [u32], n: u32, member: u32, slot: u32, op_type: u32, count: u32, records: &mut [u32]) -> u32 {
        unsafe { concur_call_host_submit(entries.as_mut_ptr(), entries.len(), n, member, slot, op_type, count, records.as_mut_ptr(), records.len()) }
    }

    fn commit(entries: &mut [u32], n: u32, record: &[u32], outcome: &mut [u32]) -> u32 {
        unsafe { concur_call_host_commit(entries.as_mut_ptr(), entries.len(), n, record.as_ptr(), record.len(), outcome.as_mut_ptr(), outcome.len()) }
    }
}
