// The tool that finds the step that cost an operation, on the simulator.
// Usage: cause_simulator MEMBER ORDINAL < script
#![allow(dead_code)]
#![no_main]

mod asked;
mod board;
mod cause;
mod script;
mod standard;
mod tool_main;

#[no_mangle]
pub extern "C" fn main(_argc: i32, _argv: *const *const u8) -> i32 {
    tool_main::run(&cause::CAUSE)
}
