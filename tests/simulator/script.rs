// The board program (document 01): a script in, answers out.

use crate::board::{crash, deliver, n_is_good, new_table, phase_of, Answer, COMMON, READ, WRITE};
use std::io::{BufRead, Result, Write};

pub const MOST_STEPS: u64 = 1_000_000;

#[derive(Clone, Debug, PartialEq, Eq)]
pub enum Line {
    Members(u32),
    Step(Step),
}

#[derive(Clone, Debug, PartialEq, Eq)]
pub enum Step {
    Write { member: u32, value: u32 },
    Read { member: u32, slot: u32 },
    Deliver { member: u32 },
    Crash { member: u32 },
}

impl Step {
    pub fn member(&self) -> u32 {
        match *self {
            Step::Write { member, .. } | Step::Read { member, .. } => member,
            Step::Deliver { member } | Step::Crash { member } => member,
        }
    }

    /// Makes the step on a common board.
    pub fn make(&self, table: &mut [u32]) -> Answer {
        let number = match *self {
            Step::Write { member, value } => COMMON.begin(table, member, member, WRITE, &[0, 0, 0, 0, 0, 0, 0, value]),
            Step::Read { member, slot } => COMMON.begin(table, member, slot, READ, &[0; 8]),
            Step::Deliver { member } => return deliver(table, member),
            Step::Crash { member } => crash(table, member),
        };
        Answer { number, returned: None }
    }
}

/// Digits without a leading zero, below 2^32. "0" is a number.
pub fn number(piece: &[u8]) -> Option<u32> {
    if piece.is_empty() || (piece.len() > 1 && piece[0] == b'0') {
        return None;
    }
    let mut value: u64 = 0;
    for byte in piece {
        if *byte < b'0' || *byte > b'9' {
            return None;
        }
        value = value * 10 + (*byte - b'0') as u64;
        if value > u32::MAX as u64 {
            return None;
        }
    }
    Some(value as u32)
}

/// A line without its line feed. None is a line of another form.
pub fn parse(line: &[u8]) -> Option<Line> {
    let pieces: Vec<&[u8]> = line.split(|byte| *byte == b' ').collect();
    let word = pieces[0];
    if pieces.len() == 2 {
        let a = number(pieces[1])?;
        if word == b"members" {
            return Some(Line::Members(a));
        }
        if word == b"deliver" {
            return Some(Line::Step(Step::Deliver { member: a }));
        }
        if word == b"crash" {
            return Some(Line::Step(Step::Crash { member: a }));
        }
    }
    if pieces.len() == 3 {
        let a = number(pieces[1])?;
        let b = number(pieces[2])?;
        if word == b"write" {
            return Some(Line::Step(Step::Write { member: a, value: b }));
        }
        if word == b"read" {
            return Some(Line::Step(Step::Read { member: a, slot: b }));
        }
    }
    None
}

/// The next line without its line feed, or none at the end of the input.
pub fn next_line(input: &mut dyn BufRead) -> Result<Option<Vec<u8>>> {
    let mut line = Vec::new();
    if input.read_until(b'\n', &mut line)? == 0 {
        return Ok(None);
    }
    if line.last() == Some(&b'\n') {
        line.pop();
    }
    Ok(Some(line))
}

/// What the first line opens: a board of n, or the number by which it is refused.
pub fn first_line(input: &mut dyn BufRead) -> Result<std::result::Result<u32, u32>> {
    let first = match next_line(input)? {
        Some(line) => parse(&line),
        None => None,
    };
    Ok(match first {
        Some(Line::Members(n)) if n_is_good(n) => Ok(n),
        Some(Line::Members(_)) => Err(1),
        _ => Err(17),
    })
}

pub fn refused(number: u32) -> String {
    format!("board refused {}\n", number)
}

/// A line behind the first, as the board answered it.
pub struct Made<'a> {
    pub at: u64, // from 1
    pub step: Option<Step>, // none where the line is of another form
    pub answer: Answer,
    pub table: &'a [u32], // after it
}

/// Makes the steps behind the first line on a board of n, and shows each.
pub fn make_steps(input: &mut dyn BufRead, n: u32, mut see: impl FnMut(&Made) -> Result<()>) -> Result<()> {
    let mut table = new_table(n);
    let mut at = 0;
    while at < MOST_STEPS {
        let line = match next_line(input)? {
            Some(line) => line,
            None => break,
        };
        at += 1;
        let (step, answer) = match parse(&line) {
            Some(Line::Step(step)) => (Some(step.clone()), step.make(&mut table)),
            Some(Line::Members(_)) | None => (None, Answer { number: 17, returned: None }),
        };
        see(&Made { at, step, answer, table: &table })?;
    }
    Ok(())
}

pub fn run(input: &mut dyn BufRead, output: &mut dyn Write) -> Result<()> {
    let n = match first_line(input)? {
        Ok(n) => n,
        Err(number) => return write!(output, "{}", refused(number)),
    };
    writeln!(output, "board {}", n)?;
    make_steps(input, n, |made| {
        let phase = match &made.step {
            Some(step) if made.answer.number != 4 => phase_of(made.table, step.member()).to_string(),
            _ => "-".to_string(),
        };
        let value = match made.answer.returned {
            Some(sheet) => sheet[7].to_string(),
            None => "-".to_string(),
        };
        writeln!(output, "{} {} {} {}", made.at, made.answer.number, phase, value)
    })
}
