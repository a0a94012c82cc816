// How often each answer and each halt of the calls on the halves came up, and
// with how many pairs.

use crate::begin_cases::{ground_at, AT_THE_LIMIT};
use crate::board::{n_is_good, ABORTED, ACCEPTED, AUCTION, HALTED, READ};
use crate::calls::{Call, Lent, CALLS, NAMES};
use crate::grounds::Grounds;
use std::collections::BTreeMap;

/// The answers of each call that can occur, as in NAMES: on anything that is
/// handed in, and in walks, where n and the lengths are right.
const ANYWHERE: [&[usize]; CALLS] = [
    &[0, 1, 2, 12, 13, 14, 15],
    &[0, 1, 2, 15, 16],
    &[0, 1, 2, 3, 4, 5, 6, 7, 8, 9],
    &[0, 1, 2, 3, 4, 10, 15],
    &[0, 1, 2, 3, 4, 10, 15],
    &[0, 1, 2, 3, 4, 11],
    &[0, 1, 2, 3, 4, 5, 6, 7],
    &[0, 1, 2, 3, 4, 5, 6, 7],
    &[0, 1, 2, 3, 4, 5, 6, 7, 8, 9],
];
const IN_WALKS: [&[usize]; CALLS] =
    [&[0, 12, 13, 14, 15], &[0], &[0, 8, 9], &[0, 10, 15], &[0, 10], &[0, 11], &[0], &[0], &[0, 8, 9]];

/// The grounds of an auction begin beside those at the limit, and in walks.
const AUCTION_BEGINS: [&str; 7] =
    ["1 of any board", "1 above 4", "2 of the value", "2 of the block", "2 of a block above 4", "3", "3 above 4"];
const IN_AUCTION_WALKS: [&str; 4] = ["0 below 9,998", "0 at 9,998", "9 at 9,999", "9 at 10,000"];

/// The calls that belong to an operation: begin, reply, outcome, submit, commit, auction begin.
const OF_OPERATIONS: [usize; 6] = [2, 3, 4, 6, 7, 8];

/// How a reply that was taken ended: its halt, or 0 where it passed.
const ENDS: [u32; 8] = [0, 21, 22, 23, 24, 25, 26, 27];

/// How many numbers of pairs there are with which a reply can end so: one for
/// each place at which its check can fail, of 25 and 26 for each row. With one
/// member there is no other that a stored record could be of.
fn numbers_of_pairs(end: u32, n: u32) -> usize {
    let places = match end {
        22 | 26 | 27 => n - 1,
        24 => (n - 1).min(1),
        25 => n + 1,
        _ => 1,
    };
    places as usize
}

#[derive(Default)]
pub struct Tally {
    calls: u64,
    compared: u64,
    answers: [[u64; 17]; CALLS],
    auction_begins: Grounds,
    replies: BTreeMap<(u32, u32, u32), u64>, // by end, n and pairs
    outcomes: [u64; 3],
    values: u64,
    own_reads: [u64; CALLS], // answered 0, as in NAMES
}

/// The ground of an answer of an auction begin. "Above 4" with 2 and 3 are
/// those that the later 1 would answer if it came first.
fn auction_ground(answer: u32, n: u32, slot: u32, before: &Lent) -> &'static str {
    match answer {
        1 if n_is_good(n) => "1 above 4",
        1 => "1 of any board",
        2 if before.given.len() != 8 => "2 of the value",
        2 if n > 4 => "2 of a block above 4",
        2 => "2 of the block",
        3 if n > 4 => "3 above 4",
        3 => "3",
        0 | 9 => ground_at(answer, before.words[4 + slot as usize]),
        _ => ground_at(answer, 0),
    }
}

/// Is it a call of a member's read of its own slot? Asked where it is answered 0.
fn of_own_read(call: &Call, before: &Lent) -> bool {
    let (member, slot, op_type) = match *call {
        Call::Begin { member, slot, op_type, .. } | Call::Submit { member, slot, op_type, .. } => (member, slot, op_type),
        Call::Reply { member, .. } | Call::Outcome { member, .. } => (member, before.words[3], before.words[4]),
        Call::Commit { .. } => (before.given[0], before.given[1], before.given[2]),
        _ => return false,
    };
    slot == member && op_type == READ
}

impl Tally {
    pub fn count(&mut self, call: &Call, answer: u32, before: &Lent, after: &Lent) {
        self.calls += 1;
        self.compared += (after.words.len() + after.bytes.len() + after.given.len() + after.results.len()) as u64;
        self.answers[call.place()][answer as usize] += 1;
        if let Call::Begin { kind: AUCTION, n, slot, .. } = *call {
            self.auction_begins.count(auction_ground(answer, n, slot, before));
        }
        if answer != 0 {
            return;
        }
        self.own_reads[call.place()] += of_own_read(call, before) as u64;
        match call {
            Call::Reply { n, .. } => {
                let end = if after.words[0] == HALTED { after.words[2] } else { 0 };
                *self.replies.entry((end, *n, after.results[0])).or_default() += 1;
            }
            Call::Outcome { .. } => self.values += after.results[0] as u64,
            Call::Commit { .. } => self.outcomes[after.results[0] as usize] += 1,
            _ => {}
        }
    }

    /// Prints how often replies ended in each way, and the fewest and the most
    /// pairs; gives what never came up.
    fn report_replies(&self) -> Vec<String> {
        let mut missing = Vec::new();
        for end in ENDS {
            let name = if end == 0 { "passed".to_string() } else { format!("halt {}", end) };
            let ended_so = || self.replies.iter().filter(|(key, _)| key.0 == end);
            let times: u64 = ended_so().map(|(_, times)| times).sum();
            let fewest = ended_so().map(|(key, _)| key.2).min().unwrap_or(0);
            let most = ended_so().map(|(key, _)| key.2).max().unwrap_or(0);
            println!("replies {:7} {:6} times, pairs {} to {}", name, times, fewest, most);
            if times == 0 {
                missing.push(name);
            }
        }
        for (n, pairs) in [(1, 3), (12, 300)] {
            if !self.replies.contains_key(&(0, n, pairs)) {
                missing.push(format!("passed with {} pairs", pairs));
            }
        }
        missing
    }

    /// Prints how often each call of own reads was done; gives which never was.
    fn report_own_reads(&self) -> Vec<String> {
        let mut missing = Vec::new();
        for place in OF_OPERATIONS {
            println!("own reads, {:13} {:6} times", NAMES[place], self.own_reads[place]);
            if self.own_reads[place] == 0 {
                missing.push(format!("{} of an own read", NAMES[place]));
            }
        }
        missing
    }

    /// Where not every number of pairs came up that can.
    fn missing_pairs(&self) -> Vec<String> {
        let mut missing = Vec::new();
        for n in 1..=12 {
            for end in ENDS {
                let seen = self.replies.keys().filter(|key| (key.0, key.1) == (end, n)).count();
                if seen < numbers_of_pairs(end, n) {
                    missing.push(format!("some pairs of {} for n {}", end, n));
                }
            }
        }
        missing
    }

    /// Prints the counts; gives the names of what can occur and never did.
    fn report(&self, can_occur: &[&[usize]; CALLS], grounds: &[&str]) -> Vec<String> {
        println!("calls {} words and bytes compared {}", self.calls, self.compared);
        for (name, counts) in NAMES.iter().zip(&self.answers) {
            println!("{:13} by answer 0 to 16 {:?}", name, counts);
        }
        let (accepted, aborted) = (self.outcomes[ACCEPTED as usize], self.outcomes[ABORTED as usize]);
        println!("commits accepted {} aborted {} values returned {}", accepted, aborted, self.values);
        let mut missing = self.report_replies();
        missing.extend(self.report_own_reads());
        missing.extend(self.auction_begins.missing(NAMES[8], grounds));
        for (place, numbers) in can_occur.iter().enumerate() {
            let never = numbers.iter().filter(|number| self.answers[place][**number] == 0);
            missing.extend(never.map(|number| format!("{} {}", NAMES[place], number)));
        }
        for (name, times) in [("accepted", accepted), ("aborted", aborted), ("a value", self.values)] {
            if times == 0 {
                missing.push(name.to_string());
            }
        }
        missing
    }
}

/// Prints both; ends with 1 where something that can occur never came up.
pub fn report(cases: &Tally, walks: &Tally) {
    println!("cases:");
    let mut in_cases = cases.report(&ANYWHERE, &[&AUCTION_BEGINS[..], &AT_THE_LIMIT[..]].concat());
    in_cases.extend(cases.missing_pairs());
    println!("walks:");
    let in_walks = walks.report(&IN_WALKS, &IN_AUCTION_WALKS);
    if !in_cases.is_empty() || !in_walks.is_empty() {
        println!("NEVER CAME UP in cases: {}; in walks: {}", in_cases.join(", "), in_walks.join(", "));
        std::process::exit(1);
    }
}
