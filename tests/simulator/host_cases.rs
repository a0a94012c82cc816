// The host half on n entries: what is asked of it.

use crate::board::*;
use crate::both::Both;
use crate::calls::Call;
use crate::noise::noisy_record;
use crate::random::*;
use crate::rng::Rng;

fn opening_entries(n: u32) -> Vec<u32> {
    new_table(n)[entries_start(n)..].to_vec()
}

/// A record that the host may take as a commit for the slot's newest submit.
fn fitting_record(rng: &mut Rng, entries: &[u32], n: u32, slot: u32) -> Record {
    let entry = &entries[entry_start(n, slot)..];
    let mut record = random_record(rng, n);
    record.slot = slot;
    record.member = entry[0];
    record.count = entry[1];
    record.op_type = allowed_type(rng, record.member, slot);
    record
}

/// Every member, slot and type of a submit and of a commit, on entries that
/// carry marks.
fn fixed_arguments(both: &mut Both) {
    let mut rng = Rng::new(51);
    for n in 1..=12 {
        let mut entries = opening_entries(n);
        for slot in 1..=n {
            entries[entry_start(n, slot)] = rng.between(0, n);
            entries[entry_start(n, slot) + 1] = rng.between(0, 1);
        }
        let mut numbers: Vec<u32> = (0..=n + 1).collect();
        numbers.extend([256, 257, u32::MAX]);
        for member in &numbers {
            for slot in &numbers {
                for op_type in [0, 1, 2, 3, 257, u32::MAX] {
                    let count = rng.between(0, 1);
                    let call = Call::Submit { n, member: *member, slot: *slot, op_type, count };
                    both.words(&call, &mut entries.clone(), vec![]);
                    let mut record = random_record(&mut rng, n);
                    (record.member, record.slot, record.op_type, record.count) = (*member, *slot, op_type, count);
                    both.words(&Call::Commit { n }, &mut entries.clone(), noisy_record(&mut rng, &record, n));
                }
            }
        }
    }
}

/// Each single word of the entries set to boundary values.
fn fixed_words(both: &mut Both) {
    let mut rng = Rng::new(52);
    for (n, words) in [(1, 8), (2, 8), (3, 8), (12, 1)] {
        let edges = [u32::MAX, n + 1, 0, 1, 2, 3, 29, u32::MAX - 1];
        let slot = rng.between(1, n);
        let member = rng.between(1, n);
        let mut entries = opening_entries(n);
        entries[entry_start(n, slot)] = member;
        for place in 0..entries.len() {
            for word in &edges[..words] {
                let mut changed = entries.clone();
                changed[place] = *word;
                let record = fitting_record(&mut rng, &entries, n, slot);
                both.words(&Call::Commit { n }, &mut changed.clone(), noisy_record(&mut rng, &record, n));
                let call = Call::Submit { n, member, slot, op_type: record.op_type, count: *word };
                both.words(&call, &mut changed, vec![]);
            }
        }
    }
}

/// Every member reads and writes every slot, one after the other on the same
/// entries: each submit is handed out what the commits before it left.
fn fixed_stored(both: &mut Both) {
    let mut rng = Rng::new(53);
    for n in 1..=12 {
        let mut entries = opening_entries(n);
        for slot in 1..=n {
            for member in (1..=n).chain([slot]) {
                for op_type in [READ, WRITE, READ] {
                    let call = Call::Submit { n, member, slot, op_type, count: rng.word() };
                    both.words(&call, &mut entries, vec![]);
                    let mut record = fitting_record(&mut rng, &entries, n, slot);
                    (record.member, record.op_type) = (member, op_type);
                    both.words(&Call::Commit { n }, &mut entries, noisy_record(&mut rng, &record, n));
                }
            }
        }
    }
}

pub fn fixed(both: &mut Both) {
    fixed_arguments(both);
    fixed_words(both);
    fixed_stored(both);
}

// ---------------------------------------------------------------- random

/// A submit or a commit, mostly one that the host takes.
fn some_call(both: &mut Both, rng: &mut Rng, entries: &mut Vec<u32>, n: u32) {
    let slot = rng.between(1, n);
    if rng.once_in(2) {
        let member = rng.between(1, n);
        let mut call = Call::Submit { n, member, slot, op_type: allowed_type(rng, member, slot), count: rng.between(0, 2) };
        if rng.once_in(5) {
            call = Call::Submit { n, member: any_number(rng, n), slot: any_number(rng, n), op_type: any_type(rng), count: rng.word() };
        }
        both.words(&call, entries, vec![]);
        return;
    }
    let mut record = fitting_record(rng, entries, n, slot);
    match rng.below(12) {
        0 => record.member = any_number(rng, n),
        1 => record.slot = any_number(rng, n),
        2 => record.op_type = any_type(rng),
        3 => record.count = record.count.wrapping_add(1),
        4 => record.count = rng.between(0, 2),
        5 => {
            record.member = rng.between(1, n);
            record.op_type = allowed_type(rng, record.member, slot);
        }
        _ => {}
    }
    both.words(&Call::Commit { n }, entries, noisy_record(rng, &record, n));
}

pub fn random_round(seed: u64, both: &mut Both) {
    let mut rng = Rng::new(seed);
    let n = rng.between(1, 12);
    let mut entries = if rng.once_in(4) { opening_entries(n) } else { any_entries(&mut rng, n) };
    for _ in 0..20 {
        some_call(both, &mut rng, &mut entries, n);
    }
    for _ in 0..3 {
        // Half of the time among the words that number 3 judges.
        let newest = 2 + record_words(n);
        let judged = [0, 2, 3, 4, newest, newest + 1, newest + 2];
        let within = if rng.once_in(2) { *rng.pick(&judged) } else { rng.below(entry_words(n) as u64) as usize };
        let place = entry_start(n, rng.between(1, n)) + within;
        let mut damaged = entries.clone();
        damaged[place] = damaged_word(&mut rng, damaged[place], n);
        for _ in 0..4 {
            some_call(both, &mut rng, &mut damaged, n);
        }
    }
}
