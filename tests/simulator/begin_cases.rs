// Begins with each ground for a refusal beside each other, so that the first
// in order decides; and by which ground an auction board's call was answered.

use crate::board::*;

/// A begin, and what is lent to it: a block, or a table of such blocks.
pub struct BeginCase {
    pub short: bool,   // what is lent lacks its last word
    pub unsound: bool, // and has a word out of range
    pub value_words: usize,
    pub member: u32,
    pub slot: u32,
    pub op_type: u32,
    pub block: Block,
}

/// Takes one choice out of a number that stands for all of them.
fn choose<T: Copy>(all: &mut usize, choices: &[T]) -> T {
    let choice = choices[*all % choices.len()];
    *all /= choices.len();
    choice
}

pub const BEGIN_CASES: usize = 2 * 2 * 2 * 2 * 3 * 3 * 3 * 3;

/// The case of this number, on a board of n whose begin is this kind's.
pub fn begin_case(kind: Kind, n: u32, number: usize) -> BeginCase {
    let mut rest = number;
    let mut block = block_from_words(&vec![0; block_words(n)], n);
    (block.phase, block.crash_mark) = choose(&mut rest, &[(IDLE, 0), (IDLE, 1), (SUBMIT_SENT, 0)]);
    (block.slot, block.op_type) = (1, READ);
    block.own_counts.fill(choose(&mut rest, &[kind.limit - 1, kind.limit, kind.limit.saturating_add(1)]));
    BeginCase {
        slot: choose(&mut rest, &[1, n, n + 1]),
        op_type: choose(&mut rest, &[READ, WRITE, 3]),
        member: choose(&mut rest, &[1, n + 1]),
        value_words: choose(&mut rest, &[8, 7]),
        unsound: choose(&mut rest, &[false, true]),
        short: choose(&mut rest, &[false, true]),
        block,
    }
}

/// All that `ground_at` gives but the last.
pub const AT_THE_LIMIT: [&str; 6] =
    ["0 below 9,998", "0 at 9,998", "9 at 9,999", "9 at 10,000", "9 above 10,000", "9 at 4,294,967,295"];

/// The ground of an answer by the own count that stood there before.
pub fn ground_at(answer: u32, count: u32) -> &'static str {
    match (answer, count) {
        (0, 9_998) => "0 at 9,998",
        (0, _) => "0 below 9,998",
        (9, 9_999) => "9 at 9,999",
        (9, 10_000) => "9 at 10,000",
        (9, u32::MAX) => "9 at 4,294,967,295",
        (9, _) => "9 above 10,000",
        _ => "4 to 8",
    }
}
