// A member that waits for a reply, replies to it that pass, and faults in them
// that each make one check fail at one place.

use crate::board::*;
use crate::random::allowed_type;
use crate::rng::Rng;

/// A block that waits for the first reply to its first operation.
pub fn waiting_block(n: u32, slot: u32, op_type: u32) -> Block {
    let mut block = block_from_words(&vec![0; block_words(n)], n);
    block.phase = SUBMIT_SENT;
    block.slot = slot;
    block.op_type = op_type;
    block.own_counts[slot as usize - 1] = 1;
    block
}

pub struct Reply {
    pub member: u32,
    pub seals: u32,
    pub block: Block,
    pub newest: Record,
    pub stored: Record,
}

/// A reply that passes. All counts of the newest record are one count; there
/// is room about it for known and stored ones that are more or less.
pub fn passing_reply(rng: &mut Rng, n: u32, member: u32, slot: u32) -> Reply {
    let (m, r) = (member as usize - 1, slot as usize - 1);
    let count = *rng.pick(&[1, 0xFFFF, 0x7FFF_FFFF, u32::MAX - 1]);
    let mut block = waiting_block(n, slot, allowed_type(rng, member, slot));
    let mut newest = opening_record(n, slot);
    let mut stored = opening_record(n, slot);
    for k in 0..n as usize {
        let turn = rng.below(3);
        newest.matrix[k].fill(count);
        block.accepted_counts[k] = count + rng.between(0, 1);
        for c in 0..n as usize {
            stored.matrix[k][c] = count - rng.between(0, 1);
            block.known[k][c] = match turn {
                0 => count,
                1 if k != r => count + rng.between(0, 1),
                _ => count - rng.between(0, 1),
            };
        }
    }
    block.accepted_counts[r] = count;
    block.known[r][m] = count - 1 + rng.between(0, 2); // what no check looks at
    stored.matrix[r][r] = count;
    Reply { member, seals: 3, block, newest, stored }
}

/// Rows, entries and members are numbered from 1. But for the corner and the
/// entry that stands there, no two faults undo each other.
#[derive(Clone, Copy, Debug, PartialEq, Eq)]
pub enum Fault {
    Seals(u32),             // 21, with these
    Known(u32),             // 22, at an entry
    Accepted(bool),         // 23, one more or one less
    Owner(u32),             // 24, this member's
    Stored(u32, u32),       // 25, in a row at an entry
    Corner,                 // 25, at r in row r alone
    Crossed(u32, u32, u32), // 26, in a row, more at one entry and less at another
    Ahead(u32),             // 27, in a row
}

impl Fault {
    pub fn put_into(self, reply: &mut Reply) {
        let r = reply.block.slot as usize - 1;
        let count = reply.newest.matrix[r][r];
        let at = |number: u32| number as usize - 1;
        match self {
            Fault::Seals(seals) => reply.seals = seals,
            Fault::Known(k) => reply.block.known[r][at(k)] = count + 1,
            Fault::Accepted(more) => reply.block.accepted_counts[r] = if more { count + 1 } else { count - 1 },
            Fault::Owner(member) => reply.stored.member = member,
            Fault::Stored(row, k) => reply.stored.matrix[at(row)][at(k)] = count + 1,
            Fault::Corner => reply.stored.matrix[r][r] = count - 1,
            Fault::Crossed(row, more, less) => {
                reply.block.known[at(row)][at(more)] = count + 1;
                reply.block.known[at(row)][at(less)] = count - 1;
            }
            Fault::Ahead(row) => reply.block.accepted_counts[at(row)] = count - 1,
        }
    }
}

/// Every place at which a check can fail; neighbours are mostly in one row.
pub fn all_faults(n: u32, member: u32, slot: u32) -> Vec<Fault> {
    let others = |number: u32| (1..=n).filter(move |k| *k != number);
    let mut faults: Vec<Fault> = (0..3).map(Fault::Seals).collect();
    faults.extend(others(member).map(Fault::Known));
    faults.extend([Fault::Accepted(true), Fault::Accepted(false)]);
    faults.extend(others(slot).map(Fault::Owner));
    for row in 1..=n {
        faults.extend((1..=n).map(|k| Fault::Stored(row, k)));
    }
    faults.push(Fault::Corner);
    for row in others(slot) {
        for more in 1..=n {
            faults.extend(others(more).map(|less| Fault::Crossed(row, more, less)));
        }
    }
    faults.extend(others(slot).map(Fault::Ahead));
    faults
}

pub fn faulty_reply(rng: &mut Rng, n: u32, member: u32, slot: u32, faults: &[Fault]) -> Reply {
    let mut reply = passing_reply(rng, n, member, slot);
    for fault in faults {
        fault.put_into(&mut reply);
    }
    reply
}
