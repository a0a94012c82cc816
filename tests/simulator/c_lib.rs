// The C interface of the library under test.

use crate::board::{Kind, AUCTION, COMMON};

type Open = unsafe extern "C" fn(table: *mut u32, words: usize, n: u32) -> u32;
type Begin = unsafe extern "C" fn(
    table: *mut u32, words: usize, member: u32, slot: u32, op_type: u32, value: *const u32, value_words: usize,
) -> u32;

extern "C" {
    fn concur_board_words(n: u32) -> u32;
    fn concur_board_open(table: *mut u32, words: usize, n: u32) -> u32;
    fn concur_auction_open(table: *mut u32, words: usize, n: u32) -> u32;
    fn concur_board_begin(
        table: *mut u32, words: usize, member: u32, slot: u32, op_type: u32, value: *const u32, value_words: usize,
    ) -> u32;
    fn concur_auction_begin(
        table: *mut u32, words: usize, member: u32, slot: u32, op_type: u32, value: *const u32, value_words: usize,
    ) -> u32;
    fn concur_board_deliver(table: *mut u32, words: usize, member: u32, returned: *mut u32, returned_words: usize) -> u32;
    fn concur_board_crash(table: *mut u32, words: usize, member: u32) -> u32;
    fn concur_message_check(bytes: *const u8, length: usize, n: u32) -> u32;
}

pub fn words(n: u32) -> u32 {
    unsafe { concur_board_words(n) }
}

/// Each kind's own calls. The library has no other kind.
fn calls_of(kind: Kind) -> (Open, Begin) {
    match kind {
        COMMON => (concur_board_open, concur_board_begin),
        AUCTION => (concur_auction_open, concur_auction_begin),
        other => panic!("no calls for {:?}", other),
    }
}

pub fn open(kind: Kind, table: &mut [u32], n: u32) -> u32 {
    unsafe { calls_of(kind).0(table.as_mut_ptr(), table.len(), n) }
}

pub fn begin(kind: Kind, table: &mut [u32], member: u32, slot: u32, op_type: u32, value: &[u32]) -> u32 {
    unsafe { calls_of(kind).1(table.as_mut_ptr(), table.len(), member, slot, op_type, value.as_ptr(), value.len()) }
}

pub fn deliver(table: &mut [u32], member: u32, returned: &mut [u32]) -> u32 {
    unsafe { concur_board_deliver(table.as_mut_ptr(), table.len(), member, returned.as_mut_ptr(), returned.len()) }
}

pub fn crash(table: &mut [u32], member: u32) -> u32 {
    unsafe { concur_board_crash(table.as_mut_ptr(), table.len(), member) }
}

pub fn message_check(bytes: &[u8], n: u32) -> u32 {
    unsafe { concur_message_check(bytes.as_ptr(), bytes.len(), n) }
}
