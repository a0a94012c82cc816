// The board in plain Rust: the same table, the same whole-table check and the same steps, as one would write them without proofs.

const PHASE: usize = 0;
const CRASHED: usize = 1;
const HALT: usize = 2;
const SLOT: usize = 3;
const OPERATION: usize = 4;
const OWN: usize = 5;
const VALUE: usize = 4;
const MATRIX: usize = 12;
const SUBMIT_MEMBER: usize = 0;
const SUBMIT_COUNT: usize = 1;
const STORED: usize = 2;
const READ: u32 = 1;
const WRITE: u32 = 2;

/// Where things lie in the table, a block and an entry of a board of n.
#[derive(Clone, Copy)]
pub struct Layout {
    pub n: usize,
    pub accepted: usize,
    pub last: usize,
    pub pending: usize,
    pub known: usize,
    pub first: usize,
    pub second: usize,
    pub block: usize,
    pub newest: usize,
    pub entry: usize,
    pub record: usize,
}

impl Layout {
    pub fn of(n: usize) -> Layout {
        let record = MATRIX + n * n;
        let known = 21 + 2 * n;
        let first = known + n * n;
        Layout {
            n,
            accepted: OWN + n,
            last: OWN + 2 * n,
            pending: 13 + 2 * n,
            known,
            first,
            second: first + record,
            block: first + 2 * record,
            newest: STORED + record,
            entry: STORED + 2 * record,
            record,
        }
    }

    pub fn table(&self) -> usize {
        1 + self.n * (self.block + self.entry)
    }

    pub fn block_at(&self, member: u32) -> usize {
        1 + (member as usize - 1) * self.block
    }

    pub fn entry_at(&self, slot: u32) -> usize {
        1 + self.n * self.block + (slot as usize - 1) * self.entry
    }
}

fn numbered(k: u32, n: u32) -> bool {
    (1..=n).contains(&k)
}

fn barred(member: u32, slot: u32, operation: u32) -> bool {
    operation == WRITE && member != slot
}

fn sound_record(r: &[u32], n: u32) -> bool {
    r[0] <= n && r[1] <= n && r[2] <= 2
}

fn sound_block(b: &[u32], l: &Layout, member: u32) -> bool {
    let n = l.n as u32;
    let marks = b[PHASE] <= 6 && b[CRASHED] <= 1 && (b[HALT] == 0 || (21..=27).contains(&b[HALT]));
    let fields = b[SLOT] <= n && b[OPERATION] <= 2;
    let running = (1..=5).contains(&b[PHASE]);
    let lost = running && (b[SLOT] == 0 || b[OPERATION] == 0 || barred(member, b[SLOT], b[OPERATION]));
    marks && fields && !lost && sound_record(&b[l.first..], n) && sound_record(&b[l.second..], n)
}

fn sound_entry(e: &[u32], l: &Layout) -> bool {
    let n = l.n as u32;
    e[SUBMIT_MEMBER] <= n && sound_record(&e[STORED..], n) && sound_record(&e[l.newest..], n)
}

/// The number of the table, and its layout where that is 0.
fn table_number(t: &[u32]) -> Result<Layout, u32> {
    let n = *t.first().ok_or(3u32)?;
    if !numbered(n, 12) {
        return Err(3);
    }
    let l = Layout::of(n as usize);
    if t.len() != l.table() {
        return Err(2);
    }
    let (blocks, entries) = t[1..].split_at(l.n * l.block);
    let mut members = 1..=n;
    let sound = blocks.chunks_exact(l.block).all(|b| sound_block(b, &l, members.next().unwrap()))
        && entries.chunks_exact(l.entry).all(|e| sound_entry(e, &l));
    if sound { Ok(l) } else { Err(3) }
}

#[inline(never)]
pub fn open(t: &mut [u32], n: u32) -> u32 {
    if !numbered(n, 12) {
        return 1;
    }
    let l = Layout::of(n as usize);
    if t.len() != l.table() {
        return 2;
    }
    t.fill(0);
    t[0] = n;
    for slot in 1..=n {
        let at = l.entry_at(slot);
        for record in [at + STORED, at + l.newest] {
            t[record..record + 3].copy_from_slice(&[slot, slot, WRITE]);
        }
    }
    0
}

fn begin_number(b: &[u32], limit: u32, n: u32, member: u32, slot: u32, operation: u32) -> u32 {
    if !numbered(slot, n) {
        return 5;
    }
    if !(1..=2).contains(&operation) {
        return 6;
    }
    if barred(member, slot, operation) {
        return 7;
    }
    if b[PHASE] != 0 || b[CRASHED] != 0 {
        return 8;
    }
    if b[OWN + slot as usize - 1] >= limit {
        return 9;
    }
    0
}

#[inline(never)]
pub fn begin(t: &mut [u32], member: u32, slot: u32, operation: u32, value: &[u32]) -> u32 {
    begin_by(t, u32::MAX, 12, member, slot, operation, value)
}

#[inline(never)]
pub fn auction_begin(t: &mut [u32], member: u32, slot: u32, operation: u32, value: &[u32]) -> u32 {
    begin_by(t, 9_999, 4, member, slot, operation, value)
}

/// Begin on a board of a kind: the limit of an own count, and the most members.
fn begin_by(t: &mut [u32], limit: u32, most: u32, member: u32, slot: u32, operation: u32, value: &[u32]) -> u32 {
    let l = match table_number(t) {
        Ok(l) => l,
        Err(number) => return number,
    };
    if l.n as u32 > most {
        return 1;
    }
    if value.len() != 8 {
        return 2;
    }
    if !numbered(member, l.n as u32) {
        return 4;
    }
    let at = l.block_at(member);
    let b = &mut t[at..at + l.block];
    let number = begin_number(b, limit, l.n as u32, member, slot, operation);
    if number != 0 {
        return number;
    }
    b[OWN + slot as usize - 1] += 1;
    b[PHASE] = 1;
    b[SLOT] = slot;
    b[OPERATION] = operation;
    if operation == WRITE {
        b[l.pending..l.pending + 8].copy_from_slice(value);
    } else {
        b.copy_within(l.last..l.last + 8, l.pending);
    }
    0
}

#[inline(never)]
pub fn crash(t: &mut [u32], member: u32) -> u32 {
    let l = match table_number(t) {
        Ok(l) => l,
        Err(number) => return number,
    };
    if !numbered(member, l.n as u32) {
        return 4;
    }
    let b = &mut t[l.block_at(member)..];
    if b[CRASHED] != 0 || b[PHASE] == 6 {
        return 11;
    }
    b[CRASHED] = 1;
    0
}

fn refuses_deliver(b: &[u32]) -> bool {
    match b[PHASE] {
        0 | 6 => true,
        2 | 4 | 5 => b[CRASHED] != 0,
        _ => false,
    }
}

/// The end of an operation: the value that it returns.
fn finish(b: &mut [u32], l: &Layout) -> Option<[u32; 8]> {
    let mut returned = None;
    if b[PHASE] == 4 {
        let slot = b[SLOT] as usize - 1;
        b[l.accepted + slot] = b[OWN + slot];
        b.copy_within(l.first + MATRIX..l.second, l.known);
        if b[OPERATION] == WRITE {
            b.copy_within(l.pending..l.pending + 8, l.last);
        } else if b[OPERATION] == READ {
            let at = l.second + VALUE;
            returned = Some(b[at..at + 8].try_into().unwrap());
        }
    }
    b[l.pending..l.pending + 8].fill(0);
    b[l.first..].fill(0);
    b[PHASE] = 0;
    b[SLOT] = 0;
    b[OPERATION] = 0;
    returned
}

/// Deliver, whose steps in phases 1 to 3 are given.
fn deliver(
    t: &mut [u32],
    member: u32,
    returned: &mut [u32],
    submit: impl Fn(&mut [u32], &mut [u32], &Layout, u32),
    reply: impl Fn(&mut [u32], &Layout, u32),
    commit: impl Fn(&mut [u32], &mut [u32], &Layout, u32),
) -> u32 {
    let l = match table_number(t) {
        Ok(l) => l,
        Err(number) => return number,
    };
    if returned.len() != 9 {
        return 2;
    }
    if !numbered(member, l.n as u32) {
        return 4;
    }
    let (blocks, entries) = t.split_at_mut(1 + l.n * l.block);
    let at = l.block_at(member);
    let b = &mut blocks[at..at + l.block];
    if refuses_deliver(b) {
        return 10;
    }
    let entry = (b[SLOT] as usize - 1) * l.entry;
    let e = &mut entries[entry..entry + l.entry];
    let mut value = None;
    match b[PHASE] {
        1 => submit(b, e, &l, member),
        2 => reply(b, &l, member),
        3 => commit(b, e, &l, member),
        _ => value = finish(b, &l),
    }
    returned[0] = value.is_some() as u32;
    returned[1..].copy_from_slice(&value.unwrap_or([0; 8]));
    0
}

/// Records handed on by value.
pub mod by_value {
    use super::*;

    type Matrix = [[u32; 12]; 12];

    #[derive(Clone, Copy)]
    struct Record {
        member: u32,
        slot: u32,
        operation: u32,
        count: u32,
        value: [u32; 8],
        matrix: Matrix,
    }

    struct Reply {
        newest: Record,
        stored: Record,
    }

    fn load_matrix(w: &[u32], n: usize) -> Matrix {
        let mut m = [[0; 12]; 12];
        for (row, words) in m.iter_mut().zip(w[..n * n].chunks_exact(n)) {
            for (count, word) in row.iter_mut().zip(words) {
                *count = *word;
            }
        }
        m
    }

    fn load_record(w: &[u32], n: usize) -> Record {
        Record {
            member: w[0],
            slot: w[1],
            operation: w[2],
            count: w[3],
            value: w[VALUE..MATRIX].try_into().unwrap(),
            matrix: load_matrix(&w[MATRIX..], n),
        }
    }

    fn store_record(w: &mut [u32], n: usize, r: Record) {
        w[..4].copy_from_slice(&[r.member, r.slot, r.operation, r.count]);
        w[VALUE..MATRIX].copy_from_slice(&r.value);
        for (words, row) in w[MATRIX..MATRIX + n * n].chunks_exact_mut(n).zip(r.matrix) {
            for (word, count) in words.iter_mut().zip(row) {
                *word = count;
            }
        }
    }

    fn host_submit(e: &mut [u32], l: &Layout, member: u32, count: u32) -> Reply {
        e[SUBMIT_MEMBER] = member;
        e[SUBMIT_COUNT] = count;
        Reply { newest: load_record(&e[l.newest..], l.n), stored: load_record(&e[STORED..], l.n) }
    }

    fn host_commit(e: &mut [u32], l: &Layout, r: Record) -> bool {
        if e[SUBMIT_MEMBER] != r.member || e[SUBMIT_COUNT] != r.count {
            return false;
        }
        e[SUBMIT_MEMBER] = 0;
        e[SUBMIT_COUNT] = 0;
        store_record(&mut e[l.newest..], l.n, r);
        if r.member == r.slot {
            e.copy_within(l.newest.., STORED);
        }
        true
    }

    fn below(a: &[u32; 12], b: &[u32; 12], n: usize) -> bool {
        a[..n].iter().zip(&b[..n]).all(|(x, y)| x <= y)
    }

    fn halt(b: &[u32], l: &Layout, member: usize, known: &Matrix, newest: &Record, stored: &Record) -> u32 {
        let (n, r) = (l.n, b[SLOT] as usize - 1);
        let accepted = &b[l.accepted..l.accepted + n];
        let latest = &newest.matrix;
        if (0..n).any(|k| k != member && known[r][k] > latest[r][k]) {
            return 22;
        }
        if latest[r][member] != accepted[r] {
            return 23;
        }
        if stored.member != b[SLOT] {
            return 24;
        }
        if !(0..n).all(|j| below(&stored.matrix[j], &latest[j], n)) || stored.matrix[r][r] != latest[r][r] {
            return 25;
        }
        if (0..n).any(|j| j != r && !below(&known[j], &latest[j], n) && !below(&latest[j], &known[j], n)) {
            return 26;
        }
        if (0..n).any(|j| j != r && latest[j][member] > accepted[j]) {
            return 27;
        }
        0
    }

    fn take_reply(b: &mut [u32], l: &Layout, member: u32, newest: Record, stored: Record) {
        let known = load_matrix(&b[l.known..], l.n);
        let number = halt(b, l, member as usize - 1, &known, &newest, &stored);
        if number != 0 {
            b[PHASE] = 6;
            b[HALT] = number;
            b[l.first..].fill(0);
            return;
        }
        let r = b[SLOT] as usize - 1;
        let count = b[OWN + r];
        let mut matrix = [[0; 12]; 12];
        for j in 0..l.n {
            matrix[j] = if below(&known[j], &newest.matrix[j], l.n) { newest.matrix[j] } else { known[j] };
        }
        matrix[r] = newest.matrix[r];
        matrix[r][member as usize - 1] = count;
        let value = b[l.pending..l.pending + 8].try_into().unwrap();
        let own = Record { member, slot: b[SLOT], operation: b[OPERATION], count, value, matrix };
        store_record(&mut b[l.first..], l.n, own);
        store_record(&mut b[l.second..], l.n, stored);
        b[PHASE] = 3;
    }

    fn submit(b: &mut [u32], e: &mut [u32], l: &Layout, member: u32) {
        let reply = host_submit(e, l, member, b[OWN + b[SLOT] as usize - 1]);
        store_record(&mut b[l.first..], l.n, reply.newest);
        store_record(&mut b[l.second..], l.n, reply.stored);
        b[PHASE] = 2;
    }

    fn reply(b: &mut [u32], l: &Layout, member: u32) {
        let newest = load_record(&b[l.first..], l.n);
        let stored = load_record(&b[l.second..], l.n);
        take_reply(b, l, member, newest, stored);
    }

    fn commit(b: &mut [u32], e: &mut [u32], l: &Layout, member: u32) {
        let mut sent = load_record(&b[l.first..], l.n);
        sent.member = member;
        sent.slot = b[SLOT];
        sent.operation = b[OPERATION];
        sent.count = b[OWN + b[SLOT] as usize - 1];
        b[PHASE] = if host_commit(e, l, sent) { 4 } else { 5 };
    }

    #[inline(never)]
    pub fn deliver(t: &mut [u32], member: u32, returned: &mut [u32]) -> u32 {
        super::deliver(t, member, returned, submit, reply, commit)
    }
}

/// The floor: the same steps on the words where they lie.
pub mod in_place {
    use super::*;

    fn below(a: &[u32], b: &[u32]) -> bool {
        a.iter().zip(b).all(|(x, y)| x <= y)
    }

    fn submit(b: &mut [u32], e: &mut [u32], l: &Layout, member: u32) {
        e[SUBMIT_MEMBER] = member;
        e[SUBMIT_COUNT] = b[OWN + b[SLOT] as usize - 1];
        b[l.first..l.second].copy_from_slice(&e[l.newest..]);
        b[l.second..].copy_from_slice(&e[STORED..l.newest]);
        b[PHASE] = 2;
    }

    fn halt(b: &[u32], l: &Layout, member: usize) -> u32 {
        let (n, r) = (l.n, b[SLOT] as usize - 1);
        let accepted = &b[l.accepted..l.accepted + n];
        let known = &b[l.known..l.known + n * n];
        let latest = &b[l.first + MATRIX..l.second];
        let stored = &b[l.second + MATRIX..];
        let row = r * n..r * n + n;
        if (0..n).any(|k| k != member && known[row.clone()][k] > latest[row.clone()][k]) {
            return 22;
        }
        if latest[r * n + member] != accepted[r] {
            return 23;
        }
        if b[l.second] != b[SLOT] {
            return 24;
        }
        if !below(stored, latest) || stored[r * n + r] != latest[r * n + r] {
            return 25;
        }
        let mut rows = known.chunks_exact(n).zip(latest.chunks_exact(n)).enumerate();
        if rows.any(|(j, (a, b))| j != r && !below(a, b) && !below(b, a)) {
            return 26;
        }
        let mut rows = latest.chunks_exact(n).zip(accepted).enumerate();
        if rows.any(|(j, (row, count))| j != r && row[member] > *count) {
            return 27;
        }
        0
    }

    fn reply(b: &mut [u32], l: &Layout, member: u32) {
        let number = halt(b, l, member as usize - 1);
        if number != 0 {
            b[PHASE] = 6;
            b[HALT] = number;
            b[l.first..].fill(0);
            return;
        }
        let (n, r) = (l.n, b[SLOT] as usize - 1);
        let count = b[OWN + r];
        let (front, messages) = b.split_at_mut(l.first);
        let rows = messages[MATRIX..l.record].chunks_exact_mut(n).zip(front[l.known..].chunks_exact(n));
        for (j, (latest, known)) in rows.enumerate() {
            if j != r && !below(known, latest) {
                latest.copy_from_slice(known);
            }
        }
        messages[..4].copy_from_slice(&[member, front[SLOT], front[OPERATION], count]);
        messages[VALUE..MATRIX].copy_from_slice(&front[l.pending..l.pending + 8]);
        messages[MATRIX + r * n + member as usize - 1] = count;
        front[PHASE] = 3;
    }

    fn commit(b: &mut [u32], e: &mut [u32], l: &Layout, member: u32) {
        let count = b[OWN + b[SLOT] as usize - 1];
        if e[SUBMIT_MEMBER] != member || e[SUBMIT_COUNT] != count {
            b[PHASE] = 5;
            return;
        }
        e[SUBMIT_MEMBER] = 0;
        e[SUBMIT_COUNT] = 0;
        let newest = &mut e[l.newest..];
        newest.copy_from_slice(&b[l.first..l.second]);
        newest[..4].copy_from_slice(&[member, b[SLOT], b[OPERATION], count]);
        if b[SLOT] == member {
            e.copy_within(l.newest.., STORED);
        }
        b[PHASE] = 4;
    }

    #[inline(never)]
    pub fn deliver(t: &mut [u32], member: u32, returned: &mut [u32]) -> u32 {
        super::deliver(t, member, returned, submit, reply, commit)
    }
}
