// Drives a library with the C interface beside the simulator and compares
// the answer and every word after each call.
// Usage: capi SECONDS [SEED]
#![allow(dead_code)]

mod arguments;
mod auction_runs;
mod begin_cases;
mod board;
mod c_lib;
mod c_sim;
mod grounds;
mod guarded;
mod message_cases;
mod messages;
mod random;
mod reference;
mod rng;

use begin_cases::{begin_case, ground_at, AT_THE_LIMIT, BEGIN_CASES};
use board::*;
use grounds::Grounds;
use guarded::{Guarded, GUARD, UNTOUCHED};
use message_cases::{fixed_messages, random_messages};
use random::*;
use rng::Rng;
use std::collections::BTreeMap;
use std::time::Instant;

#[derive(Clone, Debug)]
enum Call {
    Open { kind: Kind, n: u32 },
    Begin { kind: Kind, member: u32, slot: u32, op_type: u32, value: Vec<u32> },
    Deliver { member: u32, returned_words: usize },
    Crash { member: u32 },
}

impl Call {
    fn name(&self) -> &'static str {
        match self {
            Call::Open { kind: AUCTION, .. } => "auction open",
            Call::Open { .. } => "open",
            Call::Begin { kind: AUCTION, .. } => "auction begin",
            Call::Begin { .. } => "begin",
            Call::Deliver { .. } => "deliver",
            Call::Crash { .. } => "crash",
        }
    }
}

/// The answers of each call that can occur; in a run beside the book n and
/// all lengths are right.
const CAN_OCCUR: [(&str, &[usize]); 7] = [
    ("open", &[0, 1, 2]),
    ("auction open", &[0, 1, 2]),
    ("begin", &[0, 2, 3, 4, 5, 6, 7, 8, 9]),
    ("auction begin", &[0, 1, 2, 3, 4, 5, 6, 7, 8, 9]),
    ("deliver", &[0, 2, 3, 4, 10]),
    ("crash", &[0, 2, 3, 4, 11]),
    (BESIDE_THE_BOOK, &[0, 8, 9, 10, 11]),
];
const BESIDE_THE_BOOK: &str = "beside the book";
const OPEN_GROUNDS: [&str; 5] = ["0", "1 at 0", "1 at 5 to 12", "1 above 12", "2"];
const BEGIN_GROUNDS: [&str; 7] =
    ["1", "2 of the table", "2 of a table above 4", "2 of the value", "3 of n", "3 of a word", "3 of a word above 4"];

#[derive(Default)]
struct Tally {
    calls: u64,
    words: u64,
    answers: BTreeMap<&'static str, [u64; 18]>,
    auction_opens: Grounds,
    auction_begins: Grounds,
    halts: [u64; 28],
    returned: u64,
    own_reads: [u64; 7], // delivers of a member's read of its own slot, by the phase after
    messages: u64,
    checks: [u64; 18],
}

fn open_ground(answer: u32, n: u32) -> &'static str {
    match (answer, n) {
        (0, _) => "0",
        (1, 0) => "1 at 0",
        (1, 1..=12) => "1 at 5 to 12",
        (1, _) => "1 above 12",
        _ => "2",
    }
}

/// "Above 4" are those that 1 would answer if it came first.
fn begin_ground(answer: u32, before: &[u32], member: u32, slot: u32) -> &'static str {
    let n = before.first().copied().unwrap_or(0);
    match answer {
        1 => "1",
        2 if check_table(before) == 0 => "2 of the value",
        2 if n > 4 => "2 of a table above 4",
        2 => "2 of the table",
        3 if !n_is_good(n) => "3 of n",
        3 if n > 4 => "3 of a word above 4",
        3 => "3 of a word",
        0 | 9 => ground_at(answer, block_of(before, member).own_counts[slot as usize - 1]),
        _ => ground_at(answer, 0),
    }
}

impl Tally {
    fn count_answer(&mut self, name: &'static str, answer: u32) {
        self.answers.entry(name).or_default()[answer as usize] += 1;
    }

    fn count(&mut self, call: &Call, answer: u32, before: &[u32]) {
        self.calls += 1;
        self.words += before.len() as u64;
        self.count_answer(call.name(), answer);
        match call {
            Call::Open { kind: AUCTION, n } => self.auction_opens.count(open_ground(answer, *n)),
            Call::Begin { kind: AUCTION, member, slot, .. } => {
                self.auction_begins.count(begin_ground(answer, before, *member, *slot));
            }
            _ => {}
        }
    }

    /// A deliver that was answered 0.
    fn count_delivered(&mut self, member: u32, before: &[u32], after: &[u32], returned: bool) {
        let start = block_start(after[0], member);
        let phase = after[start];
        if phase == HALTED {
            self.halts[after[start + 2] as usize] += 1;
        }
        if before[start + 3] == member && before[start + 4] == READ {
            self.own_reads[phase as usize] += 1;
        }
        self.returned += returned as u64;
    }
}

fn fail(what: &str) -> ! {
    println!("DIFFERENCE: {}", what);
    std::process::exit(1);
}

fn run_lib(table: &mut [u32], call: &Call, returned: &mut [u32]) -> u32 {
    match call {
        Call::Open { kind, n } => c_lib::open(*kind, table, *n),
        Call::Begin { kind, member, slot, op_type, value } => {
            let mut lent = Guarded::new(value, GUARD);
            let answer = c_lib::begin(*kind, table, *member, *slot, *op_type, lent.inside());
            if lent.inside() != &value[..] || !lent.intact() {
                fail(&format!("{:?}: wrote to the value or beside it", call));
            }
            answer
        }
        Call::Deliver { member, .. } => c_lib::deliver(table, *member, returned),
        Call::Crash { member } => c_lib::crash(table, *member),
    }
}

fn run_sim(table: &mut [u32], call: &Call, returned: &mut [u32]) -> u32 {
    match call {
        Call::Open { kind, n } => c_sim::open(*kind, table, *n),
        Call::Begin { kind, member, slot, op_type, value } => c_sim::begin(*kind, table, *member, *slot, *op_type, value),
        Call::Deliver { member, .. } => c_sim::deliver(table, *member, returned),
        Call::Crash { member } => c_sim::crash(table, *member),
    }
}

/// Makes the call on both; the table becomes what the simulator made of it.
/// Gives the number and what was returned.
fn both(table: &mut Vec<u32>, call: &Call, tally: &mut Tally) -> (u32, Vec<u32>) {
    let before = table.clone();
    let returned_words = match call {
        Call::Deliver { returned_words, .. } => *returned_words,
        _ => 0,
    };
    let mut lent = Guarded::new(table, GUARD);
    let mut out_lib = Guarded::new(&vec![UNTOUCHED; returned_words], GUARD);
    let mut out_sim = vec![UNTOUCHED; returned_words];

    let by_lib = run_lib(lent.inside(), call, out_lib.inside());
    let by_sim = run_sim(table, call, &mut out_sim);

    let story = || {
        let n = if before.is_empty() { 0 } else { before[0] };
        format!("{:?} on a table of {} words, its n {}", call, before.len(), n)
    };
    if by_lib != by_sim {
        fail(&format!("{}: library answers {}, simulator {}", story(), by_lib, by_sim));
    }
    for i in 0..table.len() {
        if lent.inside()[i] != table[i] {
            fail(&format!("{}, answer {}: word {} was {}, library {}, simulator {}", story(), by_sim, i, before[i], lent.inside()[i], table[i]));
        }
    }
    if out_lib.inside() != &out_sim[..] {
        fail(&format!("{}, answer {}: returned by library {:?}, simulator {:?}", story(), by_sim, out_lib.inside(), out_sim));
    }
    if !lent.intact() || !out_lib.intact() {
        fail(&format!("{}: wrote outside what was lent", story()));
    }
    if by_sim != 0 && *table != before {
        fail(&format!("{}: the simulator itself changed words at a refusal", story()));
    }

    tally.count(call, by_sim, &before);
    if let Call::Deliver { member, .. } = call {
        if by_sim == 0 {
            tally.count_delivered(*member, &before, table, out_sim[0] == 1);
        }
    }
    (by_sim, out_sim)
}

// ---------------------------------------------------------------- making calls

/// A call that mostly moves things forward; a begin is this kind's.
fn useful_call(rng: &mut Rng, kind: Kind, n: u32, table: &[u32], crash_once_in: u64) -> Call {
    let member = rng.between(1, n);
    if rng.once_in(crash_once_in) {
        return Call::Crash { member };
    }
    if table[block_start(n, member)] == IDLE {
        let slot = if rng.once_in(2) { 1 } else { rng.between(1, n) };
        let op_type = allowed_type(rng, member, slot);
        return Call::Begin { kind, member, slot, op_type, value: random_sheet(rng).to_vec() };
    }
    Call::Deliver { member, returned_words: 9 }
}

/// A call with any arguments.
fn any_call(rng: &mut Rng, n: u32) -> Call {
    let member = any_number(rng, n);
    match rng.below(8) {
        0 => Call::Crash { member },
        1 | 2 | 3 => {
            let returned_words = if rng.once_in(6) { *rng.pick(&[0, 1, 8, 10, 18]) } else { 9 };
            Call::Deliver { member, returned_words }
        }
        _ => {
            let slot = any_number(rng, n);
            let op_type = any_type(rng);
            let mut value = random_sheet(rng).to_vec();
            if rng.once_in(6) {
                value.resize(*rng.pick(&[0, 1, 7, 9, 16]), 1);
            }
            Call::Begin { kind: any_kind(rng), member, slot, op_type, value }
        }
    }
}

fn some_call(rng: &mut Rng, table: &[u32]) -> Call {
    if check_table(table) == 0 && !rng.once_in(4) {
        let kind = any_kind(rng);
        return useful_call(rng, kind, table[0], table, 20);
    }
    let n = if table.is_empty() { 3 } else { table[0] };
    any_call(rng, n)
}

// ---------------------------------------------------------------- making tables

/// A table after a random run.
fn after_run(rng: &mut Rng, n: u32, steps: u32, crash_once_in: u64) -> Vec<u32> {
    let mut table = new_table(n);
    for _ in 0..steps {
        let call = useful_call(rng, COMMON, n, &table, crash_once_in);
        run_sim(&mut table, &call, &mut [0; 9]);
    }
    table
}

/// A table of any words that passes the table check.
fn any_table(rng: &mut Rng, n: u32) -> Vec<u32> {
    let mut table = vec![n];
    for member in 1..=n {
        table.extend(any_block(rng, n, member));
    }
    table.extend(any_entries(rng, n));
    table
}

/// One member in phase 2 whose reply is nearly good. Every second time its
/// submit is the slot's newest, so that its commit is accepted.
fn near_table(rng: &mut Rng, n: u32) -> (Vec<u32>, u32) {
    let NearReply { member, mut block, newest, stored } = near_reply(rng, n);
    block.phase = REPLY_SENT;
    block.first = newest;
    block.second = stored;
    let mut table = new_table(n);
    put_block(&mut table, member, &block);
    if rng.once_in(2) {
        let mut entry = entry_of(&table, block.slot);
        entry.submit_member = member;
        entry.submit_count = block.own_counts[block.slot as usize - 1];
        put_entry(&mut table, block.slot, &entry);
    }
    (table, member)
}

/// Changes some words.
fn corrupt(rng: &mut Rng, table: &mut Vec<u32>) {
    let n = table[0];
    for _ in 0..rng.between(1, 4) {
        let mut place = rng.below(table.len() as u64) as usize;
        if rng.once_in(3) {
            // Among the five first words of a block.
            place = block_start(n, rng.between(1, n)) + rng.below(5) as usize;
        }
        table[place] = damaged_word(rng, table[place], n);
        if place == 0 && rng.once_in(2) {
            table[0] = n;
        }
        if !n_is_good(table[0]) {
            return;
        }
        if table[0] != n {
            return;
        }
    }
}

fn all_calls(n: u32) -> Vec<Call> {
    let mut calls = Vec::new();
    for member in 0..=n + 1 {
        calls.push(Call::Deliver { member, returned_words: 9 });
        calls.push(Call::Crash { member });
        for slot in 0..=n + 1 {
            for op_type in 0..=3 {
                calls.extend(KINDS.map(|kind| Call::Begin { kind, member, slot, op_type, value: vec![7; 8] }));
            }
        }
    }
    calls
}

// ---------------------------------------------------------------- the parts

/// Opening and lengths, for every n and around every length.
fn fixed_opening(tally: &mut Tally) {
    for n in 1..=12 {
        if c_lib::words(n) as usize != table_words(n) {
            fail(&format!("concur_board_words({}) is {}, expected {}", n, c_lib::words(n), table_words(n)));
        }
    }
    // Document 01 does not say what it is for another n; shown, not judged.
    println!("words for n = 0, 13, 4294967295: {} {} {}", c_lib::words(0), c_lib::words(13), c_lib::words(u32::MAX));
    for n in [0, 1, 2, 3, 4, 5, 6, 7, 8, 9, 10, 11, 12, 13, 14, 255, 256, 260, 268, u32::MAX] {
        for kind in KINDS {
            opening_lengths(kind, n, tally);
        }
    }
}

fn opening_lengths(kind: Kind, n: u32, tally: &mut Tally) {
    for length in 0..200 {
        both(&mut vec![0xFFFF_FFFF; length], &Call::Open { kind, n }, tally);
    }
    for right in 1..=12 {
        let words = table_words(right);
        for length in [words - 1, words, words + 1, words + 7] {
            both(&mut vec![0xFFFF_FFFF; length], &Call::Open { kind, n }, tally);
        }
    }
}

/// Tables of other lengths and other n.
fn fixed_lengths(tally: &mut Tally) {
    for n in 1..=12 {
        let good = new_table(n);
        let mut lengths = vec![0, 1, 2, good.len() - 1, good.len() + 1, good.len() + 30];
        lengths.extend((1..=12).map(table_words));
        for length in lengths {
            for first in [n, 0, 13, u32::MAX] {
                let mut table = good.clone();
                table.resize(length, 0);
                if length > 0 {
                    table[0] = first;
                }
                for call in [
                    Call::Begin { kind: COMMON, member: 1, slot: 1, op_type: WRITE, value: vec![1; 8] },
                    Call::Begin { kind: COMMON, member: 99, slot: 1, op_type: WRITE, value: vec![1; 7] },
                    Call::Begin { kind: AUCTION, member: 1, slot: 1, op_type: WRITE, value: vec![1; 8] },
                    Call::Begin { kind: AUCTION, member: 99, slot: 1, op_type: WRITE, value: vec![1; 7] },
                    Call::Deliver { member: 1, returned_words: 9 },
                    Call::Deliver { member: 99, returned_words: 8 },
                    Call::Crash { member: 1 },
                    Call::Crash { member: 99 },
                ] {
                    both(&mut table.clone(), &call, tally);
                }
            }
        }
    }
}

/// Every call with every small argument, on tables after runs and in every phase.
fn fixed_arguments(tally: &mut Tally) {
    let mut rng = Rng::new(11);
    for n in 1..=5 {
        for steps in [0, 1, 2, 3, 5, 8, 13, 30, 60] {
            let table = after_run(&mut rng, n, steps, 15);
            for call in all_calls(n) {
                both(&mut table.clone(), &call, tally);
            }
        }
    }
    // All phases, marks, halt numbers, slots and types of one block.
    for n in 1..=3 {
        for member in 1..=n {
            for phase in 0..=7 {
                for mark in 0..=2 {
                    for halt in [0, 1, 20, 21, 22, 26, 27, 28, u32::MAX] {
                        for slot in 0..=n + 1 {
                            for op_type in 0..=3 {
                                let mut table = new_table(n);
                                let start = block_start(n, member);
                                table[start..start + 5].copy_from_slice(&[phase, mark, halt, slot, op_type]);
                                let begins = if slot == 0 { 1 } else { slot };
                                let begun = allowed_type(&mut rng, member, begins);
                                both(&mut table.clone(), &Call::Deliver { member, returned_words: 9 }, tally);
                                both(&mut table.clone(), &Call::Crash { member }, tally);
                                for kind in KINDS {
                                    let call = Call::Begin { kind, member, slot: begins, op_type: begun, value: vec![3; 8] };
                                    both(&mut table.clone(), &call, tally);
                                }
                            }
                        }
                    }
                }
            }
        }
    }
}

/// Each single word of a table set to boundary values, then each member's calls.
fn fixed_words(tally: &mut Tally) {
    let mut rng = Rng::new(12);
    for n in [1u32, 2, 3] {
        for steps in [0, 7, 25] {
            let table = after_run(&mut rng, n, steps, 1000);
            for place in 0..table.len() {
                for word in [0, 1, 2, 3, n + 1, 7, 21, 28, 9_998, 9_999, u32::MAX - 1, u32::MAX] {
                    for member in 1..=n {
                        let slot = member % n + 1;
                        let op_type = allowed_type(&mut rng, member, slot);
                        let mut changed = table.clone();
                        changed[place] = word;
                        for kind in KINDS {
                            let call = Call::Begin { kind, member, slot, op_type, value: vec![9; 8] };
                            both(&mut changed.clone(), &call, tally);
                        }
                        both(&mut changed.clone(), &Call::Crash { member }, tally);
                        for _ in 0..2 {
                            both(&mut changed, &Call::Deliver { member, returned_words: 9 }, tally);
                        }
                    }
                }
            }
        }
    }
    // The same once over a table of twelve, for the words that are checked,
    // and over one of five, on which an auction begin asks for 3 before 1.
    let begin = Call::Begin { kind: AUCTION, member: 1, slot: 1, op_type: WRITE, value: vec![9; 8] };
    for (n, call) in [(12, Call::Crash { member: 12 }), (5, begin)] {
        let table = after_run(&mut rng, n, 200, 1000);
        for place in 0..table.len() {
            let mut changed = table.clone();
            changed[place] = 29;
            both(&mut changed, &call, tally);
        }
    }
}

/// Each ground of a begin beside each other.
fn fixed_begins(tally: &mut Tally) {
    for n in [1, 2, 3, 4, 5, 8, 12] {
        for kind in KINDS {
            for number in 0..BEGIN_CASES {
                let case = begin_case(kind, n, number);
                let mut table = new_table(n);
                (1..=n).for_each(|member| put_block(&mut table, member, &case.block));
                if case.unsound {
                    table[entries_start(n) + entry_start(n, n)] = n + 1;
                }
                table.truncate(table.len() - case.short as usize);
                let value = vec![4; case.value_words];
                let call = Call::Begin { kind, member: case.member, slot: case.slot, op_type: case.op_type, value };
                both(&mut table, &call, tally);
            }
        }
    }
}

/// Every own count at and about a limit, of one member on one slot alone.
fn fixed_counts(tally: &mut Tally) {
    for n in 1..=12 {
        for member in [1, n] {
            for slot in 1..=n {
                for count in COUNTS {
                    let mut table = new_table(n);
                    table[block_start(n, member) + 4 + slot as usize] = count;
                    for kind in KINDS {
                        for (asked, op_type) in [(slot, READ), (member, WRITE), (slot % n + 1, READ)] {
                            both(&mut table.clone(), &Call::Begin { kind, member, slot: asked, op_type, value: vec![6; 8] }, tally);
                        }
                    }
                }
            }
        }
    }
}

/// A run from the kind's opening, each call on both.
fn opened_run(rng: &mut Rng, kind: Kind, n: u32, tally: &mut Tally) {
    let mut table = vec![rng.word(); table_words(n)];
    both(&mut table, &Call::Open { kind, n }, tally);
    let crash_once_in = *rng.pick(&[30, 200, 100_000]);
    for _ in 0..150 {
        let useful = useful_call(rng, kind, n, &table, crash_once_in);
        let call = if rng.once_in(8) { any_call(rng, n) } else { useful };
        both(&mut table, &call, tally);
    }
}

/// Own counts near a kind's limit or above it, on boards of any size. Begins
/// are of both kinds, since nothing in a table says of which it is.
fn late_run(rng: &mut Rng, kind: Kind, n: u32, tally: &mut Tally) {
    let mut table = new_table(n);
    for member in 1..=n {
        let mut block = block_of(&table, member);
        for k in 0..n as usize {
            block.own_counts[k] = kind.limit.saturating_add(1) - rng.between(0, 3);
        }
        put_block(&mut table, member, &block);
    }
    for _ in 0..80 {
        let begins = any_kind(rng);
        let call = useful_call(rng, begins, n, &table, 300);
        both(&mut table, &call, tally);
    }
}

/// One round of random work from its own seed.
fn random_round(seed: u64, tally: &mut Tally) {
    let mut rng = Rng::new(seed);
    let kind = any_kind(&mut rng);
    let n = rng.between(1, 12);
    match rng.below(7) {
        0 => opened_run(&mut rng, kind, n.min(kind.most), tally),
        1 => late_run(&mut rng, kind, n, tally),
        // A table after a run, corrupted.
        2 => {
            let steps = rng.between(0, 60);
            let start = after_run(&mut rng, n, steps, 60);
            for _ in 0..12 {
                let mut table = start.clone();
                corrupt(&mut rng, &mut table);
                for _ in 0..6 {
                    let call = some_call(&mut rng, &table);
                    both(&mut table, &call, tally);
                }
            }
        }
        // A table of any words.
        3 => {
            let mut table = any_table(&mut rng, n);
            if rng.once_in(3) {
                corrupt(&mut rng, &mut table);
            }
            for _ in 0..20 {
                let call = some_call(&mut rng, &table);
                both(&mut table, &call, tally);
            }
        }
        // Replies that are nearly good.
        4 => {
            for _ in 0..20 {
                let (mut table, member) = near_table(&mut rng, n);
                for _ in 0..3 {
                    both(&mut table, &Call::Deliver { member, returned_words: 9 }, tally);
                }
            }
        }
        // A run near the limit, beside the book.
        5 => auction_runs::near_the_limit(&mut rng, kind, n.min(kind.most), tally),
        // Another length.
        _ => {
            let steps = rng.between(0, 30);
            let mut table = after_run(&mut rng, n, steps, 60);
            if rng.once_in(2) {
                let cut = rng.below(table.len() as u64) as usize;
                table.truncate(cut);
            } else {
                for _ in 0..rng.between(1, 40) {
                    table.push(rng.between(0, 3));
                }
            }
            for _ in 0..6 {
                let call = any_call(&mut rng, n);
                both(&mut table, &call, tally);
            }
        }
    }
}

// ---------------------------------------------------------------- messages

fn both_check(bytes: &[u8], n: u32, tally: &mut Tally) {
    let before = bytes.to_vec();
    let by_lib = c_lib::message_check(bytes, n);
    let by_sim = messages::check(bytes, n);
    if by_lib != by_sim {
        let shown = &bytes[..bytes.len().min(60)];
        fail(&format!("message of {} bytes, n {}: library {}, simulator {}; starts {:?}", bytes.len(), n, by_lib, by_sim, shown));
    }
    if bytes != &before[..] {
        fail("the message check wrote to the message");
    }
    tally.messages += 1;
    tally.checks[by_sim as usize] += 1;
}

fn main() {
    let (limit, seed) = arguments::seconds_and_seed("capi");
    let start = Instant::now();
    let mut tally = Tally::default();

    fixed_opening(&mut tally);
    fixed_lengths(&mut tally);
    fixed_arguments(&mut tally);
    fixed_words(&mut tally);
    fixed_begins(&mut tally);
    fixed_counts(&mut tally);
    auction_runs::fixed(&mut tally);
    fixed_messages(&mut |bytes, n| both_check(bytes, n, &mut tally));
    let fixed = start.elapsed();
    // The random part runs in the time that is left, at least 500 rounds.
    let mut rounds: u64 = 0;
    while rounds < 500 || start.elapsed() < limit {
        random_round(seed.wrapping_mul(1_000_003).wrapping_add(rounds), &mut tally);
        random_messages(seed.wrapping_mul(2_000_003).wrapping_add(rounds), &mut |bytes, n| both_check(bytes, n, &mut tally));
        rounds += 1;
    }

    println!("seed {} rounds {} fixed part {:.1} s, all {:.1} s", seed, rounds, fixed.as_secs_f64(), start.elapsed().as_secs_f64());
    report(&tally);
    println!("all agreed");
}

/// Prints what came up. The work must not be empty.
fn report(tally: &Tally) {
    println!("calls {} words compared {} sheets returned {}", tally.calls, tally.words, tally.returned);
    println!("halts 22 to 27    {:?}", &tally.halts[22..]);
    println!("delivers of own reads by phase after {:?}", tally.own_reads);
    println!("messages {} by answer 0, 1, 12 to 15: {} {} {:?}", tally.messages, tally.checks[0], tally.checks[1], &tally.checks[12..16]);
    let mut wanted: Vec<(&str, Vec<u64>, &[usize])> = vec![
        ("halt", tally.halts.to_vec(), &[22, 23, 24, 25, 26, 27]),
        ("own read to phase", tally.own_reads.to_vec(), &[0, 2, 3, 4, 5, 6]),
        ("message", tally.checks.to_vec(), &[0, 1, 12, 13, 14, 15]),
    ];
    for (name, numbers) in CAN_OCCUR {
        let answers = tally.answers.get(name).copied().unwrap_or_default();
        println!("{:15} by answer {:?}", name, &answers[..12]);
        wanted.push((name, answers.to_vec(), numbers));
    }
    let mut missing = tally.auction_opens.missing("auction open", &OPEN_GROUNDS);
    missing.extend(tally.auction_begins.missing("auction begin", &[&BEGIN_GROUNDS[..], &AT_THE_LIMIT[..]].concat()));
    for (name, counts, numbers) in wanted {
        missing.extend(numbers.iter().filter(|number| counts[**number] == 0).map(|number| format!("{} {}", name, number)));
    }
    if !missing.is_empty() {
        fail(&format!("never came up: {}", missing.join(", ")));
    }
}
