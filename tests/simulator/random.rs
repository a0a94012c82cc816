// Random values that more than one of the programs tries.

use crate::board::*;
use crate::rng::Rng;

pub fn random_sheet(rng: &mut Rng) -> Sheet {
    let mut sheet = [0; 8];
    for word in sheet.iter_mut() {
        *word = rng.word();
    }
    sheet
}

/// A record that a message may carry.
pub fn random_record(rng: &mut Rng, n: u32) -> Record {
    let mut record = zero_record(n);
    record.member = rng.between(1, n);
    record.slot = rng.between(1, n);
    record.op_type = rng.between(1, 2);
    record.count = rng.word();
    record.sheet = random_sheet(rng);
    for row in record.matrix.iter_mut() {
        for count in row.iter_mut() {
            *count = rng.word();
        }
    }
    record
}

/// A member or a slot, every second time one that a board of n has not, or
/// an edge.
pub fn any_number(rng: &mut Rng, n: u32) -> u32 {
    let near = n.min(12);
    if rng.once_in(2) && near > 0 {
        return rng.between(1, near);
    }
    *rng.pick(&[0, 1, 2, n, n.wrapping_add(1), 11, 12, 13, 255, 256, 0x8000_0000, u32::MAX])
}

pub fn any_type(rng: &mut Rng) -> u32 {
    if rng.once_in(4) {
        return *rng.pick(&[0, 3, 257, u32::MAX]);
    }
    rng.between(1, 2)
}

/// Own counts at and about the limits of both kinds of board, one of them by
/// its low half alone.
pub const COUNTS: [u32; 9] = [0, 9_997, 9_998, 9_999, 10_000, 65_536 + 9_998, 0x8000_0000, u32::MAX - 1, u32::MAX];

pub fn any_kind(rng: &mut Rng) -> Kind {
    *rng.pick(&KINDS)
}

/// A type with which number 7 lets a member to a slot: the owner reads as
/// often as it writes.
pub fn allowed_type(rng: &mut Rng, member: u32, slot: u32) -> u32 {
    if slot == member {
        rng.between(READ, WRITE)
    } else {
        READ
    }
}

/// Another word, often one that is just good or just bad at some place.
pub fn damaged_word(rng: &mut Rng, old: u32, n: u32) -> u32 {
    let about = [old ^ 1, old.wrapping_add(1), old.wrapping_sub(1)];
    let edges = [0, 1, 2, 3, n, n + 1, 6, 7, 12, 13, 20, 21, 27, 28, 9_998, 9_999, 10_000, u32::MAX - 1, u32::MAX];
    *rng.pick(&[&about[..], &edges[..]].concat())
}

fn small_words(rng: &mut Rng, how_many: usize) -> Vec<u32> {
    let high = *rng.pick(&[1u32, 2, 4]);
    (0..how_many).map(|_| rng.between(0, high)).collect()
}

fn any_record_head(rng: &mut Rng, n: u32, words: &mut [u32]) {
    words[0] = rng.between(0, n);
    words[1] = rng.between(0, n);
    words[2] = rng.between(0, 2);
}

/// A member's block of any words that passes number 3.
pub fn any_block(rng: &mut Rng, n: u32, member: u32) -> Vec<u32> {
    let mut block = small_words(rng, block_words(n));
    if rng.once_in(2) {
        for count in &mut block[5..5 + n as usize] {
            *count = *rng.pick(&COUNTS);
        }
    }
    let slot = rng.between(1, n);
    block[0] = rng.between(0, 6);
    block[1] = rng.once_in(5) as u32;
    block[2] = *rng.pick(&[0, 0, 21, 24, 27]);
    block[3] = slot;
    block[4] = allowed_type(rng, member, slot);
    if block[0] == IDLE && rng.once_in(2) {
        block[3] = 0;
        block[4] = 0;
    }
    any_record_head(rng, n, &mut block[first_start(n)..]);
    any_record_head(rng, n, &mut block[second_start(n)..]);
    block
}

/// Host entries of any words that pass number 3.
pub fn any_entries(rng: &mut Rng, n: u32) -> Vec<u32> {
    let mut entries = small_words(rng, n as usize * entry_words(n));
    for slot in 1..=n {
        let entry = &mut entries[entry_start(n, slot)..];
        entry[0] = rng.between(0, n);
        any_record_head(rng, n, &mut entry[2..]);
        any_record_head(rng, n, &mut entry[2 + record_words(n)..]);
    }
    entries
}

/// A member that waits for a reply, and a reply to it.
pub struct NearReply {
    pub member: u32,
    pub block: Block,
    pub newest: Record,
    pub stored: Record,
}

/// A reply that is nearly good, so that every halt and every way of joining
/// rows comes up. The block's phase and message records are zero.
pub fn near_reply(rng: &mut Rng, n: u32) -> NearReply {
    let member = rng.between(1, n);
    let slot = rng.between(1, n);
    let m = member as usize - 1;
    let r = slot as usize - 1;
    let base = *rng.pick(&[0u32, 5, 0xFFFC, 0x7FFF_FFFC, u32::MAX - 9]);
    let mut block = block_from_words(&vec![0; block_words(n)], n);
    block.slot = slot;
    block.op_type = allowed_type(rng, member, slot);
    let mut newest = opening_record(n, slot);
    newest.member = rng.between(0, n);
    for k in 0..n as usize {
        block.own_counts[k] = base + rng.between(3, 6);
        block.accepted_counts[k] = base + rng.between(2, 3);
        for c in 0..n as usize {
            newest.matrix[k][c] = base + rng.between(1, 3);
        }
        // Known is equal, below or above, the slot's row not above.
        let turn = rng.below(3);
        for c in 0..n as usize {
            let here = newest.matrix[k][c];
            block.known[k][c] = match turn {
                0 => here,
                1 => here - rng.between(0, 1),
                _ if k == r => here,
                _ => here + rng.between(0, 1),
            };
        }
        if newest.matrix[k][m] > block.accepted_counts[k] {
            newest.matrix[k][m] = block.accepted_counts[k];
        }
    }
    newest.matrix[r][m] = block.accepted_counts[r];
    let mut stored = opening_record(n, slot);
    for k in 0..n as usize {
        for c in 0..n as usize {
            stored.matrix[k][c] = newest.matrix[k][c] - rng.between(0, 1);
        }
    }
    stored.matrix[r][r] = newest.matrix[r][r];
    stored.sheet = random_sheet(rng);
    block.pending_sheet = random_sheet(rng);
    block.last_sheet = random_sheet(rng);
    // Up to two small faults.
    for _ in 0..rng.below(3) {
        let k = rng.below(n as u64) as usize;
        let c = rng.below(n as u64) as usize;
        match rng.below(7) {
            0 => block.known[k][c] += 1,
            1 => newest.matrix[k][c] += 1,
            2 => newest.matrix[k][c] -= 1,
            3 => stored.matrix[k][c] += 1,
            4 => stored.matrix[k][c] = stored.matrix[k][c].saturating_sub(1),
            5 => stored.member = rng.between(0, n),
            _ => block.accepted_counts[k] = block.accepted_counts[k].saturating_sub(1),
        }
    }
    NearReply { member, block, newest, stored }
}
