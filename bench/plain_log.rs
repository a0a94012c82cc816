// The check of a log in plain Rust: the same checks in one pass, the same things remembered, as one would write it without proofs.

pub const ROW: usize = 14;
pub const MOST_ROWS: usize = 1024;
pub const READ: u32 = 1;
pub const WRITE: u32 = 2;

type Row = [u32; ROW];
type Value = [u32; 8];

fn numbered(k: u32, n: u32) -> bool {
    (1..=n).contains(&k)
}

/// What is remembered of the rows above: the last acceptance, per member the position above which it may begin, per slot the value of the
/// last write.
struct Above<'a> {
    accepted: u32,
    ends: [u32; 12],
    written: [&'a Value; 12],
}

impl<'a> Above<'a> {
    fn take(&mut self, row: &'a Row, n: u32) -> bool {
        let [member, operation, slot, value @ .., begin, accepted, end] = row;
        let (&member, &operation, &slot, &begin, &accepted, &end) = (member, operation, slot, begin, accepted, end);
        if !numbered(member, n) || !numbered(slot, n) || !(operation == READ || operation == WRITE) {
            return false;
        }
        if operation == WRITE && slot != member {
            return false;
        }
        let before = &mut self.ends[member as usize - 1];
        if begin <= *before || accepted <= begin || accepted <= self.accepted || (end != 0 && end <= accepted) {
            return false;
        }
        // No begin is above the end of a row that has none.
        *before = if end == 0 { u32::MAX } else { end };
        self.accepted = accepted;
        let written = &mut self.written[slot as usize - 1];
        if operation == WRITE {
            *written = value;
            return true;
        }
        end == 0 || value == *written
    }
}

fn holds(rows: &[Row], n: u32) -> bool {
    let mut above = Above { accepted: 0, ends: [0; 12], written: [&[0; 8]; 12] };
    rows.iter().all(|row| above.take(row, n))
}

pub fn check(log: &[u32], n: u32, verdict: &mut [u32]) -> u32 {
    if !(1..=12).contains(&n) {
        return 1;
    }
    let (rows, rest) = log.as_chunks();
    if !rest.is_empty() || verdict.len() != 1 {
        return 2;
    }
    if rows.len() > MOST_ROWS {
        return 34;
    }
    verdict[0] = holds(rows, n) as u32;
    0
}
