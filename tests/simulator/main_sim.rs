// The board program on the simulator: standard input to standard output.
#![allow(dead_code)]

mod board;
mod script;

use std::io::{BufReader, BufWriter, Write};

fn main() {
    let mut input = BufReader::new(std::io::stdin());
    let mut output = BufWriter::new(std::io::stdout());
    script::run(&mut input, &mut output).expect("reading or writing failed");
    output.flush().expect("writing failed");
}
