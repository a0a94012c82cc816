// The bill program on the simulator: standard input to the bill.
// Usage: bill_simulator < script
#![allow(dead_code)]
#![no_main]

mod bill;
mod board;
mod script;
mod standard;

use std::io::BufReader;

#[no_mangle]
pub extern "C" fn main(_argc: i32, _argv: *const *const u8) -> i32 {
    standard::answer(|input| Ok(bill::printed(&mut BufReader::new(input), &bill::TARIFF)?.into_bytes()))
}
