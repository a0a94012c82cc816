// A tool's program on the simulator: arguments and standard input in, one line out.

use crate::asked::{printed, Tool, MOST_BYTES};
use crate::standard;
use std::fmt::Display;
use std::io::Read;
use std::os::unix::ffi::OsStringExt;

/// The status. One byte more than a script may have is enough to know.
pub fn run<Found: Display>(tool: &Tool<Found>) -> i32 {
    let arguments: Vec<Vec<u8>> = std::env::args_os().skip(1).map(|argument| argument.into_vec()).collect();
    standard::answer(|input| {
        let mut script = Vec::new();
        input.take(MOST_BYTES as u64 + 1).read_to_end(&mut script)?;
        let answered = tool.answer(&arguments, &tool.run(&script));
        Ok(printed(&answered))
    })
}
