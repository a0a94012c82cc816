// The tool that names who overtook an operation, on the simulator.
// Usage: overtaker_simulator MEMBER ORDINAL < script
#![allow(dead_code)]
#![no_main]

mod asked;
mod board;
mod overtaker;
mod script;
mod standard;
mod tool_main;

#[no_mangle]
pub extern "C" fn main(_argc: i32, _argv: *const *const u8) -> i32 {
    tool_main::run(&overtaker::OVERTAKER)
}
