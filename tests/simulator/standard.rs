// A program's standard input and output, and what it says where they fail.

use std::fs::File;
use std::io::{Result, Write};
use std::mem::ManuallyDrop;
use std::os::fd::FromRawFd;

fn write_output(printed: &[u8]) -> Result<()> {
    let mut output = std::io::stdout();
    output.write_all(printed)?;
    output.flush()
}

/// Prints what is answered to standard input, and gives the status. The program's
/// start has to be C's: Rust's would open another input in the place of a closed one.
pub fn answer(answered: impl FnOnce(&File) -> Result<Vec<u8>>) -> i32 {
    // Rust's own standard input reads as empty where it is closed. This one is never closed here.
    let input = ManuallyDrop::new(unsafe { File::from_raw_fd(0) });
    let printed = match answered(&input) {
        Ok(printed) => printed,
        Err(reason) => {
            eprintln!("standard input: {}", reason);
            return 1;
        }
    };
    if let Err(reason) = write_output(&printed) {
        eprintln!("standard output: {}", reason);
        return 1;
    }
    0
}
