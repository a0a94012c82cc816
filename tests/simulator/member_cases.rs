// The member half on one block: what is asked of it.

use crate::begin_cases::{begin_case, BEGIN_CASES};
use crate::board::*;
use crate::both::Both;
use crate::calls::{Call, Lent};
use crate::noise::noisy_records;
use crate::random::*;
use crate::replies::*;
use crate::rng::Rng;

const SEALS: [u32; 9] = [0, 1, 2, 3, 4, 5, 255, 259, u32::MAX];
const OUTCOMES: [u32; 7] = [0, 1, 2, 3, 257, 258, u32::MAX];
const EDGES: [u32; 4] = [13, 256, 257, u32::MAX];

fn idle_block(n: u32) -> Block {
    block_from_words(&vec![0; block_words(n)], n)
}

/// Each call once, on a copy of the block.
fn every_call(both: &mut Both, rng: &mut Rng, block: &[u32], n: u32, member: u32) {
    let other = member.wrapping_rem(n) + 1;
    let opening = opening_record(n, block.get(3).copied().unwrap_or(1).clamp(1, n));
    let records = noisy_records(rng, &opening, &opening, n);
    let sheet = random_sheet(rng).to_vec();
    let begins = [(member, WRITE), (member, READ), (other, READ)];
    for (slot, op_type) in begins {
        both.words(&Call::Begin { kind: COMMON, n, member, slot, op_type }, &mut block.to_vec(), sheet.clone());
    }
    let (slot, op_type) = *rng.pick(&begins);
    both.words(&Call::Begin { kind: AUCTION, n, member, slot, op_type }, &mut block.to_vec(), sheet.clone());
    both.words(&Call::Reply { n, member, seals: 3 }, &mut block.to_vec(), records);
    both.words(&Call::Outcome { n, member, outcome: ACCEPTED }, &mut block.to_vec(), vec![]);
    both.words(&Call::Outcome { n, member, outcome: ABORTED }, &mut block.to_vec(), vec![]);
    both.words(&Call::Outcome { n, member, outcome: 0 }, &mut block.to_vec(), vec![]);
    both.words(&Call::Crash { n, member }, &mut block.to_vec(), vec![]);
}

/// All phases, marks, halt numbers, slots and types of a block, each member.
fn fixed_heads(both: &mut Both) {
    let mut rng = Rng::new(41);
    for n in 1..=3 {
        let mut members: Vec<u32> = (0..=n + 1).collect();
        members.push(u32::MAX);
        let start = any_block(&mut rng, n, 1);
        for phase in 0..=7 {
            for mark in 0..=2 {
                for halt in [0, 1, 20, 21, 27, 28, u32::MAX] {
                    for slot in 0..=n + 1 {
                        for op_type in 0..=3 {
                            let mut block = start.clone();
                            block[..5].copy_from_slice(&[phase, mark, halt, slot, op_type]);
                            let member = *rng.pick(&members);
                            every_call(both, &mut rng, &block, n, member);
                            if mark == 0 && halt == 0 {
                                for member in &members {
                                    every_call(both, &mut rng, &block, n, *member);
                                }
                            }
                        }
                    }
                }
            }
        }
    }
}

/// Each single word of a block set to each of these.
fn every_word(both: &mut Both, rng: &mut Rng, block: &[u32], n: u32, member: u32, words: &[u32]) {
    for place in 0..block.len() {
        for word in words {
            let mut changed = block.to_vec();
            changed[place] = *word;
            every_call(both, rng, &changed, n, member);
        }
    }
}

/// A read of another's slot, one of the own and a write, each idle, waiting
/// for its reply and for its outcome, with boundary values.
fn fixed_words(both: &mut Both) {
    let mut rng = Rng::new(42);
    for (n, words) in [(1, 10), (2, 10), (3, 10), (5, 2), (12, 2)] {
        let edges = [u32::MAX, n + 1, 0, 1, 2, 3, 7, 21, 28, u32::MAX - 1];
        for phase in [IDLE, SUBMIT_SENT, COMMIT_SENT] {
            let member = rng.between(1, n);
            for (slot, op_type) in [(member % n + 1, READ), (member, READ), (member, WRITE)] {
                let mut block = waiting_block(n, slot, op_type);
                block.phase = phase;
                every_word(both, &mut rng, &block_to_words(&block), n, member, &edges[..words]);
            }
        }
    }
}

/// A begin of each kind with these numbers and each count that stands about a limit.
fn begins_of(both: &mut Both, rng: &mut Rng, n: u32, member: u32, slot: u32, op_type: u32) {
    for count in COUNTS {
        let mut block = idle_block(n);
        block.own_counts.fill(count);
        block.phase = if rng.once_in(8) { HALTED } else { IDLE };
        block.crash_mark = rng.once_in(8) as u32;
        let words = block_to_words(&block);
        for kind in KINDS {
            let call = Call::Begin { kind, n, member, slot, op_type };
            both.words(&call, &mut words.clone(), random_sheet(rng).to_vec());
        }
    }
}

/// Every slot, type and member of a begin.
fn fixed_begins(both: &mut Both) {
    let mut rng = Rng::new(43);
    for n in 1..=12 {
        let mut numbers: Vec<u32> = (0..=n + 1).collect();
        numbers.extend(EDGES);
        for member in &numbers {
            for slot in &numbers {
                for op_type in [0, 1, 2, 3, 257, u32::MAX] {
                    begins_of(both, &mut rng, n, *member, *slot, op_type);
                }
            }
        }
    }
}

/// Each ground of a begin beside each other; the half may be told another n.
fn fixed_orders(both: &mut Both) {
    for n in 1..=12 {
        for kind in KINDS {
            for number in 0..BEGIN_CASES {
                let case = begin_case(kind, n, number);
                let mut words = block_to_words(&case.block);
                if case.unsound {
                    words[second_start(n)] = n + 1;
                }
                words.truncate(words.len() - case.short as usize);
                for told in [n, 0, 13] {
                    let call = Call::Begin { kind, n: told, member: case.member, slot: case.slot, op_type: case.op_type };
                    let mut lent = Lent { words: words.clone(), given: vec![4; case.value_words], ..Lent::default() };
                    both.ask(&call, &mut lent);
                }
            }
        }
    }
}

/// Every number that 15 judges at a reply and at an outcome, each of them in
/// every phase and crashed or not; then the seals with each other failing.
fn fixed_fields(both: &mut Both) {
    let mut rng = Rng::new(44);
    for n in 1..=12 {
        for phase in 0..=6 {
            for mark in 0..=1 {
                let member = rng.between(1, n);
                let slot = rng.between(1, n);
                let mut block = waiting_block(n, slot, allowed_type(&mut rng, member, slot));
                block.phase = phase;
                block.crash_mark = mark;
                let block = block_to_words(&block);
                for seals in SEALS {
                    let mut newest = opening_record(n, slot);
                    newest.matrix[slot as usize - 1][member as usize - 1] = rng.between(0, 1);
                    newest.op_type = if rng.once_in(3) { 0 } else { 2 };
                    let given = noisy_records(&mut rng, &newest, &opening_record(n, slot), n);
                    both.words(&Call::Reply { n, member, seals }, &mut block.clone(), given);
                }
                for place in [0, 1, 2] {
                    for word in [0, 1, 2, 3, n, n + 1, 13, 256, 257, 256 + n, u32::MAX] {
                        for start in [0, crate::flat::RECORD] {
                            let opening = opening_record(n, slot);
                            let mut given = noisy_records(&mut rng, &opening, &opening, n);
                            given[start + place] = word;
                            let call = Call::Reply { n, member, seals: 3 };
                            both.words(&call, &mut block.clone(), given);
                        }
                    }
                }
                for outcome in OUTCOMES {
                    both.words(&Call::Outcome { n, member, outcome }, &mut block.clone(), vec![]);
                }
            }
        }
    }
}

/// The checks failing at each place, alone and with a second fault, so that
/// the first in order decides halt and pairs: on small boards each other one,
/// else the next place, mostly in the same row, and any.
fn faults_of(both: &mut Both, rng: &mut Rng, n: u32, member: u32, slot: u32) {
    let all = all_faults(n, member, slot);
    let mut together: Vec<Vec<Fault>> = vec![vec![]];
    for (place, fault) in all.iter().enumerate() {
        let next = all[(place + 1) % all.len()];
        let second = if n <= 3 { all.clone() } else { vec![next, *rng.pick(&all)] };
        together.push(vec![*fault]);
        together.extend(second.iter().map(|other| vec![*fault, *other]));
    }
    for faults in &together {
        let reply = faulty_reply(rng, n, member, slot, faults);
        let given = noisy_records(rng, &reply.newest, &reply.stored, n);
        both.words(&Call::Reply { n, member, seals: reply.seals }, &mut block_to_words(&reply.block), given);
    }
}

/// Small boards with every member and slot, the others with some.
fn fixed_faults(both: &mut Both) {
    let mut rng = Rng::new(45);
    for n in 1..=12 {
        let numbers: Vec<u32> = if n <= 5 { (1..=n).collect() } else { vec![1, n / 2, n] };
        for member in &numbers {
            for slot in &numbers {
                faults_of(both, &mut rng, n, *member, *slot);
            }
        }
    }
}

pub fn fixed(both: &mut Both) {
    fixed_heads(both);
    fixed_words(both);
    fixed_begins(both);
    fixed_orders(both);
    fixed_fields(both);
    fixed_faults(both);
}

// ---------------------------------------------------------------- random

fn some_seals(rng: &mut Rng) -> u32 {
    if rng.once_in(8) {
        return *rng.pick(&SEALS);
    }
    3
}

/// A reply that is nearly good, its outcome, and a begin after it.
fn near_round(both: &mut Both, rng: &mut Rng, n: u32) {
    let NearReply { member, mut block, mut newest, mut stored } = near_reply(rng, n);
    block.phase = SUBMIT_SENT;
    if rng.once_in(2) {
        block.first = random_record(rng, n);
        block.second = random_record(rng, n);
    }
    for record in [&mut newest, &mut stored] {
        if record.member == 0 && !rng.once_in(6) {
            record.member = rng.between(1, n);
        }
        record.count = rng.word();
        if rng.once_in(12) {
            record.slot = any_number(rng, n);
        }
        if rng.once_in(3) {
            record.op_type = any_type(rng);
        }
    }
    let mut words = block_to_words(&block);
    let given = noisy_records(rng, &newest, &stored, n);
    both.words(&Call::Reply { n, member, seals: some_seals(rng) }, &mut words, given.clone());
    if rng.once_in(6) {
        both.words(&Call::Reply { n, member, seals: 3 }, &mut words, given);
    }
    if rng.once_in(12) {
        both.words(&Call::Crash { n, member }, &mut words, vec![]);
    }
    both.words(&Call::Outcome { n, member, outcome: rng.between(1, 2) }, &mut words, vec![]);
    let slot = rng.between(1, n);
    let call = Call::Begin { kind: any_kind(rng), n, member, slot, op_type: allowed_type(rng, member, slot) };
    both.words(&call, &mut words, random_sheet(rng).to_vec());
}

/// Any call with any numbers, the member mostly the given one.
fn any_call(both: &mut Both, rng: &mut Rng, block: &mut Vec<u32>, n: u32, member: u32) {
    let member = if rng.once_in(6) { any_number(rng, n) } else { member };
    match rng.below(8) {
        0 => {
            both.words(&Call::Crash { n, member }, block, vec![]);
        }
        1 | 2 => {
            let outcome = if rng.once_in(5) { *rng.pick(&OUTCOMES) } else { rng.between(1, 2) };
            both.words(&Call::Outcome { n, member, outcome }, block, vec![]);
        }
        3 | 4 => {
            let board = n.clamp(1, 12);
            let (newest, stored) = (random_record(rng, board), random_record(rng, board));
            let mut given = noisy_records(rng, &newest, &stored, board);
            if rng.once_in(2) {
                given[4..].fill(0);
                given[crate::flat::RECORD..][..3].copy_from_slice(&[rng.between(1, board), 1, 2]);
            }
            both.words(&Call::Reply { n, member, seals: some_seals(rng) }, block, given);
        }
        _ => {
            let call = Call::Begin { kind: any_kind(rng), n, member, slot: any_number(rng, n), op_type: any_type(rng) };
            both.words(&call, block, random_sheet(rng).to_vec());
        }
    }
}

pub fn random_round(seed: u64, both: &mut Both) {
    let mut rng = Rng::new(seed);
    let n = rng.between(1, 12);
    for _ in 0..15 {
        near_round(both, &mut rng, n);
    }
    let member = rng.between(1, n);
    let mut block = any_block(&mut rng, n, member);
    for _ in 0..rng.below(3) {
        let place = if rng.once_in(2) { rng.below(5) } else { rng.below(block.len() as u64) } as usize;
        block[place] = damaged_word(&mut rng, block[place], n);
    }
    for _ in 0..12 {
        any_call(both, &mut rng, &mut block, n, member);
    }
    let asked = any_number(&mut rng, n);
    any_call(both, &mut rng, &mut block, asked, member);
}
