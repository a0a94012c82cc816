// Logs that hold, made without a board: operations of several members on one
// slot may overlap as ours never let them.

use crate::board::{Sheet, WRITE};
use crate::log::{Row, MOST_ROWS};
use crate::random::{allowed_type, random_sheet};
use crate::rng::Rng;
use std::collections::{BTreeMap, BTreeSet};

/// What the rows so far leave.
struct Vendor {
    values: Vec<Sheet>,     // of each slot
    ends: Vec<Option<u32>>, // of each member's last row; none where it has no end
    acceptance: u32,        // the last one
    end_above: u32,         // an acceptance by so much at most
    open_once_in: u64,      // rows without an end
}

/// Often one that is there already, whole or with a word altered.
fn some_value(rng: &mut Rng, values: &[Sheet]) -> Sheet {
    let mut value = if rng.once_in(4) { random_sheet(rng) } else { *rng.pick(values) };
    if rng.once_in(2) {
        value[rng.below(8) as usize] ^= 1;
    }
    value
}

impl Vendor {
    /// Another row, by a member whose row before has its end.
    fn row(&mut self, rng: &mut Rng, member: u32) -> Row {
        let slot = if rng.once_in(2) { member } else { rng.between(1, self.values.len() as u32) };
        let op_type = allowed_type(rng, member, slot);
        let lowest = self.ends[member as usize - 1].unwrap() + 1;
        let acceptance = (self.acceptance + rng.between(1, 3)).max(lowest + 1);
        let begin = if rng.once_in(3) { lowest } else { rng.between(lowest, acceptance - 1) };
        let end = if rng.once_in(self.open_once_in) { 0 } else { acceptance + rng.between(1, self.end_above) };
        let free = op_type == WRITE || end == 0;
        let value = if free { some_value(rng, &self.values) } else { self.values[slot as usize - 1] };
        if op_type == WRITE {
            self.values[slot as usize - 1] = value;
        }
        self.ends[member as usize - 1] = if end == 0 { None } else { Some(end) };
        self.acceptance = acceptance;
        Row { member, op_type, slot, value, begin, acceptance, end }
    }
}

/// So many rows, or fewer where every member has one without an end.
pub fn vendor_log(rng: &mut Rng, n: u32, rows: usize) -> Vec<Row> {
    let mut vendor = Vendor {
        values: vec![[0; 8]; n as usize],
        ends: vec![Some(0); n as usize],
        acceptance: 0,
        end_above: *rng.pick(&[1, 6, 30]),
        open_once_in: 20 + rows as u64 / 2,
    };
    let mut log = Vec::new();
    while log.len() < rows {
        let free: Vec<u32> = (1..=n).filter(|member| vendor.ends[*member as usize - 1].is_some()).collect();
        if free.is_empty() {
            break;
        }
        let member = *rng.pick(&free);
        log.push(vendor.row(rng, member));
    }
    log
}

/// The same log with its positions in the same order, further apart, up to 4,294,967,295.
pub fn stretched(rng: &mut Rng, log: &[Row]) -> Vec<Row> {
    let old: BTreeSet<u32> = log.iter().flat_map(|row| [row.begin, row.acceptance, row.end]).filter(|position| *position != 0).collect();
    let widest = *rng.pick(&[1, 2, 1_000, u32::MAX / (3 * MOST_ROWS as u32 + 3)]);
    let mut position = u32::MAX;
    let mut new = BTreeMap::from([(0, 0)]);
    for place in old.into_iter().rev() {
        new.insert(place, position);
        position -= rng.between(1, widest);
    }
    log.iter().map(|row| Row { begin: new[&row.begin], acceptance: new[&row.acceptance], end: new[&row.end], ..*row }).collect()
}
