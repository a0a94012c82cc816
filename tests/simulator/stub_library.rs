// A static library with the C interface, on the simulator. It stands in for
// the real ones, to build and try capi.rs, interleavings.rs, halves.rs and
// logs.rs.
#![allow(dead_code)]

mod board;
mod c_sim;
mod calls;
mod calls_sim;
mod flat;
mod log;
mod messages;
mod reference;
mod stub_calls;

use board::{AUCTION, COMMON};

unsafe fn lent<'a, T>(start: *mut T, how_many: usize) -> &'a mut [T] {
    std::slice::from_raw_parts_mut(start, how_many)
}

unsafe fn given<'a, T>(start: *const T, how_many: usize) -> &'a [T] {
    std::slice::from_raw_parts(start, how_many)
}

#[no_mangle]
pub extern "C" fn concur_board_words(n: u32) -> u32 {
    c_sim::words(n)
}

#[no_mangle]
pub unsafe extern "C" fn concur_board_open(table: *mut u32, words: usize, n: u32) -> u32 {
    c_sim::open(COMMON, lent(table, words), n)
}

#[no_mangle]
pub unsafe extern "C" fn concur_auction_open(table: *mut u32, words: usize, n: u32) -> u32 {
    c_sim::open(AUCTION, lent(table, words), n)
}

#[no_mangle]
pub unsafe extern "C" fn concur_board_begin(
    table: *mut u32, words: usize, member: u32, slot: u32, op_type: u32, value: *const u32, value_words: usize,
) -> u32 {
    c_sim::begin(COMMON, lent(table, words), member, slot, op_type, given(value, value_words))
}

#[no_mangle]
pub unsafe extern "C" fn concur_auction_begin(
    table: *mut u32, words: usize, member: u32, slot: u32, op_type: u32, value: *const u32, value_words: usize,
) -> u32 {
    c_sim::begin(AUCTION, lent(table, words), member, slot, op_type, given(value, value_words))
}

#[no_mangle]
pub unsafe extern "C" fn concur_board_deliver(table: *mut u32, words: usize, member: u32, returned: *mut u32, returned_words: usize) -> u32 {
    c_sim::deliver(lent(table, words), member, lent(returned, returned_words))
}

#[no_mangle]
pub unsafe extern "C" fn concur_board_crash(table: *mut u32, words: usize, member: u32) -> u32 {
    c_sim::crash(lent(table, words), member)
}

#[no_mangle]
pub unsafe extern "C" fn concur_message_check(bytes: *const u8, length: usize, n: u32) -> u32 {
    messages::check(given(bytes, length), n)
}

#[no_mangle]
pub unsafe extern "C" fn concur_log_check(log: *const u32, words: usize, n: u32, verdict: *mut u32, verdict_words: usize) -> u32 {
    log::check(given(log, words), n, lent(verdict, verdict_words))
}
