// The board of document 01, on a table of 32-bit words, made apart from the
// main code. Members and slots are numbered 1 to n; vectors here start at 0,
// so "slot r, member k" of a matrix is matrix[r - 1][k - 1].

use std::cmp::Ordering;

pub const READ: u32 = 1;
pub const WRITE: u32 = 2;

pub const IDLE: u32 = 0;
pub const SUBMIT_SENT: u32 = 1;
pub const REPLY_SENT: u32 = 2;
pub const COMMIT_SENT: u32 = 3;
pub const ACCEPTED_SENT: u32 = 4;
pub const ABORTED_SENT: u32 = 5;
pub const HALTED: u32 = 6;

pub const ACCEPTED: u32 = 1;
pub const ABORTED: u32 = 2;

pub type Sheet = [u32; 8];
pub type Matrix = Vec<Vec<u32>>;

/// What differs between boards that share all their steps. Nothing in a table
/// says of which kind it is: opening and begin are each kind's own.
#[derive(Clone, Copy, Debug, PartialEq, Eq)]
pub struct Kind {
    pub most: u32,  // members
    pub limit: u32, // the own count from which on begin answers 9
}

pub const COMMON: Kind = Kind { most: 12, limit: 4_294_967_295 };
pub const AUCTION: Kind = Kind { most: 4, limit: 9_999 };
pub const KINDS: [Kind; 2] = [COMMON, AUCTION];

#[derive(Clone, Debug, PartialEq, Eq)]
pub struct Record {
    pub member: u32,
    pub slot: u32,
    pub op_type: u32,
    pub count: u32,
    pub sheet: Sheet,
    pub matrix: Matrix,
}

#[derive(Clone, Debug, PartialEq, Eq)]
pub struct Block {
    pub phase: u32,
    pub crash_mark: u32,
    pub halt_number: u32,
    pub slot: u32,
    pub op_type: u32,
    pub own_counts: Vec<u32>,
    pub accepted_counts: Vec<u32>,
    pub last_sheet: Sheet,
    pub pending_sheet: Sheet,
    pub known: Matrix,
    pub first: Record,
    pub second: Record,
}

#[derive(Clone, Debug, PartialEq, Eq)]
pub struct Entry {
    pub submit_member: u32,
    pub submit_count: u32,
    pub stored: Record,
    pub newest: Record,
}

/// A number and, after a deliver or an outcome, the sheet of an accepted read.
#[derive(Clone, Debug, PartialEq, Eq)]
pub struct Answer {
    pub number: u32,
    pub returned: Option<Sheet>,
}

fn only(number: u32) -> Answer {
    Answer { number, returned: None }
}

/// What the checks of a reply found: the halt number of the first that fails,
/// or 0, and how many pairs of counts were looked at up to there.
#[derive(Clone, Copy, Debug, PartialEq, Eq)]
pub struct Verdict {
    pub halt: u32,
    pub pairs: u32,
}

/// What taking a reply gives: the commit to be sent, or none after a halt,
/// and beside it the pairs.
#[derive(Clone, Debug, PartialEq, Eq)]
pub struct Taken {
    pub commit: Option<Record>,
    pub pairs: u32,
}

/// What a member sends to the host first.
#[derive(Clone, Debug, PartialEq, Eq)]
pub struct Submit {
    pub member: u32,
    pub slot: u32,
    pub op_type: u32,
    pub count: u32,
}

// ---------------------------------------------------------------- layout

pub fn n_is_good(n: u32) -> bool {
    n >= 1 && n <= 12
}

pub fn record_words(n: u32) -> usize {
    let n = n as usize;
    12 + n * n
}

pub fn block_words(n: u32) -> usize {
    let n = n as usize;
    45 + 2 * n + 3 * n * n
}

pub fn entry_words(n: u32) -> usize {
    let n = n as usize;
    26 + 2 * n * n
}

/// Words of the whole table; 0 for an n that is not 1 to 12.
pub fn table_words(n: u32) -> usize {
    if !n_is_good(n) {
        return 0;
    }
    1 + n as usize * (block_words(n) + entry_words(n))
}

/// Where the block of a member starts in the table.
pub fn block_start(n: u32, member: u32) -> usize {
    1 + (member as usize - 1) * block_words(n)
}

/// Where the host entries start in the table.
pub fn entries_start(n: u32) -> usize {
    1 + n as usize * block_words(n)
}

/// Where the entry of a slot starts among the entries.
pub fn entry_start(n: u32, slot: u32) -> usize {
    (slot as usize - 1) * entry_words(n)
}

/// Where the two message records start in a block.
pub fn first_start(n: u32) -> usize {
    let n = n as usize;
    5 + n + n + 8 + 8 + n * n
}

pub fn second_start(n: u32) -> usize {
    first_start(n) + record_words(n)
}

fn take_words(words: &[u32], at: &mut usize, how_many: usize) -> Vec<u32> {
    let part = words[*at..*at + how_many].to_vec();
    *at += how_many;
    part
}

fn take_word(words: &[u32], at: &mut usize) -> u32 {
    let word = words[*at];
    *at += 1;
    word
}

fn take_sheet(words: &[u32], at: &mut usize) -> Sheet {
    let mut sheet = [0; 8];
    for i in 0..8 {
        sheet[i] = take_word(words, at);
    }
    sheet
}

fn take_matrix(words: &[u32], at: &mut usize, n: u32) -> Matrix {
    let mut matrix = Vec::new();
    for _ in 0..n {
        matrix.push(take_words(words, at, n as usize));
    }
    matrix
}

fn take_record(words: &[u32], at: &mut usize, n: u32) -> Record {
    Record {
        member: take_word(words, at),
        slot: take_word(words, at),
        op_type: take_word(words, at),
        count: take_word(words, at),
        sheet: take_sheet(words, at),
        matrix: take_matrix(words, at, n),
    }
}

pub fn block_from_words(words: &[u32], n: u32) -> Block {
    let mut at = 0;
    let block = Block {
        phase: take_word(words, &mut at),
        crash_mark: take_word(words, &mut at),
        halt_number: take_word(words, &mut at),
        slot: take_word(words, &mut at),
        op_type: take_word(words, &mut at),
        own_counts: take_words(words, &mut at, n as usize),
        accepted_counts: take_words(words, &mut at, n as usize),
        last_sheet: take_sheet(words, &mut at),
        pending_sheet: take_sheet(words, &mut at),
        known: take_matrix(words, &mut at, n),
        first: take_record(words, &mut at, n),
        second: take_record(words, &mut at, n),
    };
    assert_eq!(at, block_words(n));
    block
}

pub fn entry_from_words(words: &[u32], n: u32) -> Entry {
    let mut at = 0;
    let entry = Entry {
        submit_member: take_word(words, &mut at),
        submit_count: take_word(words, &mut at),
        stored: take_record(words, &mut at, n),
        newest: take_record(words, &mut at, n),
    };
    assert_eq!(at, entry_words(n));
    entry
}

fn put_matrix(matrix: &Matrix, out: &mut Vec<u32>) {
    for row in matrix {
        out.extend_from_slice(row);
    }
}

fn put_record(record: &Record, out: &mut Vec<u32>) {
    out.push(record.member);
    out.push(record.slot);
    out.push(record.op_type);
    out.push(record.count);
    out.extend_from_slice(&record.sheet);
    put_matrix(&record.matrix, out);
}

pub fn block_to_words(block: &Block) -> Vec<u32> {
    let mut out = Vec::new();
    out.push(block.phase);
    out.push(block.crash_mark);
    out.push(block.halt_number);
    out.push(block.slot);
    out.push(block.op_type);
    out.extend_from_slice(&block.own_counts);
    out.extend_from_slice(&block.accepted_counts);
    out.extend_from_slice(&block.last_sheet);
    out.extend_from_slice(&block.pending_sheet);
    put_matrix(&block.known, &mut out);
    put_record(&block.first, &mut out);
    put_record(&block.second, &mut out);
    out
}

pub fn entry_to_words(entry: &Entry) -> Vec<u32> {
    let mut out = Vec::new();
    out.push(entry.submit_member);
    out.push(entry.submit_count);
    put_record(&entry.stored, &mut out);
    put_record(&entry.newest, &mut out);
    out
}

/// Reads a member's block out of a good table.
pub fn block_of(table: &[u32], member: u32) -> Block {
    let n = table[0];
    let start = block_start(n, member);
    block_from_words(&table[start..start + block_words(n)], n)
}

pub fn put_block(table: &mut [u32], member: u32, block: &Block) {
    let n = table[0];
    let start = block_start(n, member);
    table[start..start + block_words(n)].copy_from_slice(&block_to_words(block));
}

/// Reads a slot's entry out of a good table.
pub fn entry_of(table: &[u32], slot: u32) -> Entry {
    let n = table[0];
    entry_in(&table[entries_start(n)..], n, slot)
}

pub fn put_entry(table: &mut [u32], slot: u32, entry: &Entry) {
    let n = table[0];
    put_entry_in(&mut table[entries_start(n)..], n, slot, entry);
}

pub fn entry_in(entries: &[u32], n: u32, slot: u32) -> Entry {
    let start = entry_start(n, slot);
    entry_from_words(&entries[start..start + entry_words(n)], n)
}

pub fn put_entry_in(entries: &mut [u32], n: u32, slot: u32, entry: &Entry) {
    let start = entry_start(n, slot);
    entries[start..start + entry_words(n)].copy_from_slice(&entry_to_words(entry));
}

pub fn phase_of(table: &[u32], member: u32) -> u32 {
    table[block_start(table[0], member)]
}

// ---------------------------------------------------------------- records

pub fn zero_matrix(n: u32) -> Matrix {
    vec![vec![0; n as usize]; n as usize]
}

pub fn zero_record(n: u32) -> Record {
    Record { member: 0, slot: 0, op_type: 0, count: 0, sheet: [0; 8], matrix: zero_matrix(n) }
}

/// A write by the slot's owner with count, sheet and matrix zero.
pub fn opening_record(n: u32, slot: u32) -> Record {
    Record { member: slot, slot, op_type: WRITE, count: 0, sheet: [0; 8], matrix: zero_matrix(n) }
}

/// No entry exceeds its fellow.
pub fn row_below(a: &[u32], b: &[u32]) -> bool {
    for k in 0..a.len() {
        if a[k] > b[k] {
            return false;
        }
    }
    true
}

// ---------------------------------------------------------------- grounds

pub fn in_range(number: u32, n: u32) -> bool {
    number >= 1 && number <= n
}

/// Number 7: a write to another's slot. Any slot may be read.
pub fn not_allowed(member: u32, slot: u32, op_type: u32) -> bool {
    op_type == WRITE && slot != member
}

/// Number 3 on the first three words of a record in a table.
fn record_words_bad(words: &[u32], n: u32) -> bool {
    words[0] > n || words[1] > n || words[2] > 2
}

/// Number 3 on a block of the right length.
fn block_words_bad(words: &[u32], n: u32, member: u32) -> bool {
    let phase = words[0];
    let crash_mark = words[1];
    let halt_number = words[2];
    let slot = words[3];
    let op_type = words[4];
    if phase > 6 || crash_mark > 1 {
        return true;
    }
    if halt_number != 0 && (halt_number < 21 || halt_number > 27) {
        return true;
    }
    if slot > n || op_type > 2 {
        return true;
    }
    if phase >= 1 && phase <= 5 {
        if slot == 0 || op_type == 0 || not_allowed(member, slot, op_type) {
            return true;
        }
    }
    record_words_bad(&words[first_start(n)..], n) || record_words_bad(&words[second_start(n)..], n)
}

/// Number 3 on an entry of the right length.
fn entry_words_bad(words: &[u32], n: u32) -> bool {
    words[0] > n
        || record_words_bad(&words[2..], n)
        || record_words_bad(&words[2 + record_words(n)..], n)
}

/// The table check: 3 for n, then 2, then 3 for the rest.
pub fn check_table(table: &[u32]) -> u32 {
    if table.is_empty() || !n_is_good(table[0]) {
        return 3;
    }
    let n = table[0];
    if table.len() != table_words(n) {
        return 2;
    }
    for member in 1..=n {
        if block_words_bad(&table[block_start(n, member)..], n, member) {
            return 3;
        }
    }
    for slot in 1..=n {
        if entry_words_bad(&table[entries_start(n) + entry_start(n, slot)..], n) {
            return 3;
        }
    }
    0
}

/// Numbers 1, 2, 3 of the member half. The member is used as given.
pub fn check_block(words: &[u32], n: u32, member: u32) -> u32 {
    if !n_is_good(n) {
        return 1;
    }
    if words.len() != block_words(n) {
        return 2;
    }
    if block_words_bad(words, n, member) {
        return 3;
    }
    0
}

/// Numbers 1, 2, 3 of the host half.
pub fn check_entries(words: &[u32], n: u32) -> u32 {
    if !n_is_good(n) {
        return 1;
    }
    if words.len() != n as usize * entry_words(n) {
        return 2;
    }
    for slot in 1..=n {
        if entry_words_bad(&words[entry_start(n, slot)..], n) {
            return 3;
        }
    }
    0
}

/// Numbers 4 to 7, by the fields.
fn operation_grounds(n: u32, member: u32, slot: u32, op_type: u32) -> u32 {
    if !in_range(member, n) {
        return 4;
    }
    if !in_range(slot, n) {
        return 5;
    }
    if op_type != READ && op_type != WRITE {
        return 6;
    }
    if not_allowed(member, slot, op_type) {
        return 7;
    }
    0
}

/// Numbers 8 and 9. A lent block may hold a count above the limit.
fn begin_grounds(block: &Block, slot: u32, limit: u32) -> u32 {
    if block.phase != IDLE || block.crash_mark == 1 {
        return 8;
    }
    if block.own_counts[slot as usize - 1] >= limit {
        return 9;
    }
    0
}

/// Number 10 on the board.
fn deliver_grounds(block: &Block) -> u32 {
    if block.phase == IDLE || block.phase == HALTED {
        return 10;
    }
    let to_the_member =
        block.phase == REPLY_SENT || block.phase == ACCEPTED_SENT || block.phase == ABORTED_SENT;
    if to_the_member && block.crash_mark == 1 {
        return 10;
    }
    0
}

/// Number 11.
fn crash_grounds(block: &Block) -> u32 {
    if block.crash_mark == 1 || block.phase == HALTED {
        return 11;
    }
    0
}

/// Number 15 on a record of a message.
pub fn record_fields_bad(record: &Record, n: u32) -> bool {
    !in_range(record.member, n)
        || !in_range(record.slot, n)
        || (record.op_type != READ && record.op_type != WRITE)
}

// ------------------------------------------------- the steps of a member

fn own_count(block: &Block) -> u32 {
    block.own_counts[block.slot as usize - 1]
}

fn step_begin(block: &mut Block, slot: u32, op_type: u32, sheet: &Sheet) {
    block.own_counts[slot as usize - 1] += 1;
    block.slot = slot;
    block.op_type = op_type;
    if op_type == WRITE {
        block.pending_sheet = *sheet;
    } else {
        block.pending_sheet = block.last_sheet;
    }
    block.phase = SUBMIT_SENT;
}

/// The checks of a reply, of member m on slot r, here both from 0. What is
/// counted is what is done: they compare counts in `compare` alone.
struct Checks<'a> {
    m: usize,
    r: usize,
    accepted: &'a [u32],
    known: &'a Matrix,
    newest: &'a Matrix,
    stored: &'a Matrix,
    pairs: u32,
}

impl Checks<'_> {
    /// Looks at one pair.
    fn compare(&mut self, a: u32, b: u32) -> Ordering {
        self.pairs += 1;
        a.cmp(&b)
    }

    /// Looks at two rows to their end: is some entry of a less than its
    /// fellow, is some greater?
    fn compare_rows(&mut self, a: &[u32], b: &[u32]) -> (bool, bool) {
        let (mut less, mut greater) = (false, false);
        for k in 0..a.len() {
            match self.compare(a[k], b[k]) {
                Ordering::Less => less = true,
                Ordering::Equal => {}
                Ordering::Greater => greater = true,
            }
        }
        (less, greater)
    }

    fn fails_22(&mut self) -> bool {
        for k in 0..self.known.len() {
            if k != self.m && self.compare(self.known[self.r][k], self.newest[self.r][k]).is_gt() {
                return true;
            }
        }
        false
    }

    fn fails_23(&mut self) -> bool {
        self.compare(self.newest[self.r][self.m], self.accepted[self.r]).is_ne()
    }

    fn fails_25(&mut self) -> bool {
        for k in 0..self.stored.len() {
            let (_, greater) = self.compare_rows(&self.stored[k], &self.newest[k]);
            if greater {
                return true;
            }
        }
        self.compare(self.stored[self.r][self.r], self.newest[self.r][self.r]).is_ne()
    }

    fn fails_26(&mut self) -> bool {
        for k in 0..self.known.len() {
            if k == self.r {
                continue;
            }
            let (less, greater) = self.compare_rows(&self.known[k], &self.newest[k]);
            if less && greater {
                return true;
            }
        }
        false
    }

    fn fails_27(&mut self) -> bool {
        for k in 0..self.newest.len() {
            if k != self.r && self.compare(self.newest[k][self.m], self.accepted[k]).is_gt() {
                return true;
            }
        }
        false
    }
}

/// Makes the checks in order. 21 and 24 compare no counts.
pub fn halt_of(block: &Block, member: u32, seals: u32, newest: &Record, stored: &Record) -> Verdict {
    let mut checks = Checks {
        m: member as usize - 1,
        r: block.slot as usize - 1,
        accepted: &block.accepted_counts,
        known: &block.known,
        newest: &newest.matrix,
        stored: &stored.matrix,
        pairs: 0,
    };
    let halt = if seals != 3 {
        21
    } else if checks.fails_22() {
        22
    } else if checks.fails_23() {
        23
    } else if stored.member != block.slot {
        24
    } else if checks.fails_25() {
        25
    } else if checks.fails_26() {
        26
    } else if checks.fails_27() {
        27
    } else {
        0
    };
    Verdict { halt, pairs: checks.pairs }
}

/// Gives the pairs, also where it halts.
fn step_reply(block: &mut Block, n: u32, member: u32, seals: u32, newest: &Record, stored: &Record) -> u32 {
    let Verdict { halt, pairs } = halt_of(block, member, seals, newest, stored);
    if halt != 0 {
        block.phase = HALTED;
        block.halt_number = halt;
        block.first = zero_record(n);
        block.second = zero_record(n);
        return pairs;
    }
    let m = member as usize - 1;
    let r = block.slot as usize - 1;
    let mut matrix = zero_matrix(n);
    for k in 0..n as usize {
        if k == r {
            matrix[k] = newest.matrix[k].clone();
            matrix[k][m] = own_count(block);
        } else if row_below(&block.known[k], &newest.matrix[k]) {
            matrix[k] = newest.matrix[k].clone();
        } else {
            matrix[k] = block.known[k].clone();
        }
    }
    block.first = Record {
        member,
        slot: block.slot,
        op_type: block.op_type,
        count: own_count(block),
        sheet: block.pending_sheet,
        matrix,
    };
    block.second = stored.clone();
    block.phase = COMMIT_SENT;
    pairs
}

/// The record that a member in phase 3 sends: sheet and matrix are the
/// message record's, the rest is the block's.
fn commit_of(block: &Block, member: u32) -> Record {
    Record {
        member,
        slot: block.slot,
        op_type: block.op_type,
        count: own_count(block),
        sheet: block.first.sheet,
        matrix: block.first.matrix.clone(),
    }
}

fn step_outcome(block: &mut Block, n: u32, outcome: u32) -> Option<Sheet> {
    let mut returned = None;
    if outcome == ACCEPTED {
        let r = block.slot as usize - 1;
        block.known = block.first.matrix.clone();
        block.accepted_counts[r] = block.own_counts[r];
        if block.op_type == WRITE {
            block.last_sheet = block.pending_sheet;
        } else {
            returned = Some(block.second.sheet);
        }
    }
    block.phase = IDLE;
    block.slot = 0;
    block.op_type = 0;
    block.pending_sheet = [0; 8];
    block.first = zero_record(n);
    block.second = zero_record(n);
    returned
}

// ------------------------------------------------- the steps of the host

fn step_host_submit(entry: &mut Entry, member: u32, count: u32) -> (Record, Record) {
    entry.submit_member = member;
    entry.submit_count = count;
    (entry.newest.clone(), entry.stored.clone())
}

fn step_host_commit(entry: &mut Entry, record: &Record) -> u32 {
    if entry.submit_member != record.member || entry.submit_count != record.count {
        return ABORTED;
    }
    entry.newest = record.clone();
    // The owner's read too: it raises the owner's count, which check 25 wants equal in both.
    if record.member == record.slot {
        entry.stored = record.clone();
    }
    entry.submit_member = 0;
    entry.submit_count = 0;
    ACCEPTED
}

// ---------------------------------------------------------------- the board: opening and begin, then the common steps

impl Kind {
    /// Opens a lent table: numbers 1 and 2 only.
    pub fn open(self, table: &mut [u32], n: u32) -> u32 {
        if !in_range(n, self.most) {
            return 1;
        }
        if table.len() != table_words(n) {
            return 2;
        }
        for i in 0..table.len() {
            table[i] = 0;
        }
        table[0] = n;
        for slot in 1..=n {
            let entry = Entry {
                submit_member: 0,
                submit_count: 0,
                stored: opening_record(n, slot),
                newest: opening_record(n, slot),
            };
            put_entry(table, slot, &entry);
        }
        0
    }

    /// Number 1 at a begin, after the number of what was lent.
    fn after(self, fault: u32, n: u32) -> u32 {
        if fault == 0 && n > self.most {
            return 1;
        }
        fault
    }

    /// What begin asks of the table: its own numbers, then 1.
    pub fn check_table(self, table: &[u32]) -> u32 {
        self.after(check_table(table), table.first().copied().unwrap_or(0))
    }

    /// The same of a block.
    pub fn check_block(self, words: &[u32], n: u32, member: u32) -> u32 {
        self.after(check_block(words, n, member), n)
    }

    pub fn begin(self, table: &mut [u32], member: u32, slot: u32, op_type: u32, sheet: &Sheet) -> u32 {
        let fault = self.check_table(table);
        if fault != 0 {
            return fault;
        }
        let n = table[0];
        let ground = operation_grounds(n, member, slot, op_type);
        if ground != 0 {
            return ground;
        }
        let mut block = block_of(table, member);
        let ground = begin_grounds(&block, slot, self.limit);
        if ground != 0 {
            return ground;
        }
        step_begin(&mut block, slot, op_type, sheet);
        put_block(table, member, &block);
        0
    }

    /// The member half begins, and hands out the submit to be sent.
    pub fn half_begin(self, words: &mut [u32], n: u32, member: u32, slot: u32, op_type: u32, sheet: &Sheet) -> Result<Submit, u32> {
        let fault = self.check_block(words, n, member);
        if fault != 0 {
            return Err(fault);
        }
        let ground = operation_grounds(n, member, slot, op_type);
        if ground != 0 {
            return Err(ground);
        }
        let mut block = block_from_words(words, n);
        let ground = begin_grounds(&block, slot, self.limit);
        if ground != 0 {
            return Err(ground);
        }
        step_begin(&mut block, slot, op_type, sheet);
        words.copy_from_slice(&block_to_words(&block));
        Ok(Submit { member, slot, op_type, count: own_count(&block) })
    }
}

/// A fresh table, for an n of 1 to 12.
pub fn new_table(n: u32) -> Vec<u32> {
    let mut table = vec![0; table_words(n)];
    assert_eq!(COMMON.open(&mut table, n), 0);
    table
}

pub fn deliver(table: &mut [u32], member: u32) -> Answer {
    let fault = check_table(table);
    if fault != 0 {
        return only(fault);
    }
    let n = table[0];
    if !in_range(member, n) {
        return only(4);
    }
    let mut block = block_of(table, member);
    let ground = deliver_grounds(&block);
    if ground != 0 {
        return only(ground);
    }
    let slot = block.slot;
    let mut returned = None;
    if block.phase == SUBMIT_SENT {
        let mut entry = entry_of(table, slot);
        let (newest, stored) = step_host_submit(&mut entry, member, own_count(&block));
        block.first = newest;
        block.second = stored;
        block.phase = REPLY_SENT;
        put_entry(table, slot, &entry);
    } else if block.phase == REPLY_SENT {
        let newest = block.first.clone();
        let stored = block.second.clone();
        step_reply(&mut block, n, member, 3, &newest, &stored);
    } else if block.phase == COMMIT_SENT {
        let mut entry = entry_of(table, slot);
        let outcome = step_host_commit(&mut entry, &commit_of(&block, member));
        if outcome == ACCEPTED {
            block.phase = ACCEPTED_SENT;
        } else {
            block.phase = ABORTED_SENT;
        }
        put_entry(table, slot, &entry);
    } else if block.phase == ACCEPTED_SENT {
        returned = step_outcome(&mut block, n, ACCEPTED);
    } else {
        returned = step_outcome(&mut block, n, ABORTED);
    }
    put_block(table, member, &block);
    Answer { number: 0, returned }
}

pub fn crash(table: &mut [u32], member: u32) -> u32 {
    let fault = check_table(table);
    if fault != 0 {
        return fault;
    }
    if !in_range(member, table[0]) {
        return 4;
    }
    let mut block = block_of(table, member);
    let ground = crash_grounds(&block);
    if ground != 0 {
        return ground;
    }
    block.crash_mark = 1;
    put_block(table, member, &block);
    0
}

// ------------------------------------------------- the member half, on a block; it begins above

/// Takes a reply. A refusal has looked at no pair.
pub fn half_take_reply(words: &mut [u32], n: u32, member: u32, seals: u32, newest: &Record, stored: &Record) -> Result<Taken, u32> {
    let fault = check_block(words, n, member);
    if fault != 0 {
        return Err(fault);
    }
    if !in_range(member, n) {
        return Err(4);
    }
    let mut block = block_from_words(words, n);
    if block.phase != SUBMIT_SENT || block.crash_mark == 1 {
        return Err(10);
    }
    if seals > 3 || record_fields_bad(newest, n) || record_fields_bad(stored, n) {
        return Err(15);
    }
    let pairs = step_reply(&mut block, n, member, seals, newest, stored);
    words.copy_from_slice(&block_to_words(&block));
    let commit = if block.phase == HALTED { None } else { Some(commit_of(&block, member)) };
    Ok(Taken { commit, pairs })
}

/// Takes an outcome (1 accepted, 2 aborted).
pub fn half_take_outcome(words: &mut [u32], n: u32, member: u32, outcome: u32) -> Answer {
    let fault = check_block(words, n, member);
    if fault != 0 {
        return only(fault);
    }
    if !in_range(member, n) {
        return only(4);
    }
    let mut block = block_from_words(words, n);
    if block.phase != COMMIT_SENT || block.crash_mark == 1 {
        return only(10);
    }
    if outcome != ACCEPTED && outcome != ABORTED {
        return only(15);
    }
    let returned = step_outcome(&mut block, n, outcome);
    words.copy_from_slice(&block_to_words(&block));
    Answer { number: 0, returned }
}

pub fn half_crash(words: &mut [u32], n: u32, member: u32) -> u32 {
    let fault = check_block(words, n, member);
    if fault != 0 {
        return fault;
    }
    if !in_range(member, n) {
        return 4;
    }
    let mut block = block_from_words(words, n);
    let ground = crash_grounds(&block);
    if ground != 0 {
        return ground;
    }
    block.crash_mark = 1;
    words.copy_from_slice(&block_to_words(&block));
    0
}

// ------------------------------------------------- the host half, on n entries

/// Takes a submit, and hands out the newest and the stored record.
pub fn host_submit(entries: &mut [u32], n: u32, submit: &Submit) -> Result<(Record, Record), u32> {
    let fault = check_entries(entries, n);
    if fault != 0 {
        return Err(fault);
    }
    let ground = operation_grounds(n, submit.member, submit.slot, submit.op_type);
    if ground != 0 {
        return Err(ground);
    }
    let mut entry = entry_in(entries, n, submit.slot);
    let reply = step_host_submit(&mut entry, submit.member, submit.count);
    put_entry_in(entries, n, submit.slot, &entry);
    Ok(reply)
}

/// Takes a commit, and hands out the outcome.
pub fn host_commit(entries: &mut [u32], n: u32, record: &Record) -> Result<u32, u32> {
    let fault = check_entries(entries, n);
    if fault != 0 {
        return Err(fault);
    }
    let ground = operation_grounds(n, record.member, record.slot, record.op_type);
    if ground != 0 {
        return Err(ground);
    }
    let mut entry = entry_in(entries, n, record.slot);
    let outcome = step_host_commit(&mut entry, record);
    put_entry_in(entries, n, record.slot, &entry);
    Ok(outcome)
}
