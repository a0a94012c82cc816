// The calls on the message reader, the writer and the two halves, in the
// form that the library and the simulator share.

use crate::board::{Kind, AUCTION};

/// Each answers its number. Slices are what is lent, given and filled.
pub trait Calls {
    fn read(bytes: &[u8], n: u32, fields: &mut [u32]) -> u32;
    fn write(fields: &[u32], n: u32, out: &mut [u8], written: &mut [u32]) -> u32;
    fn begin(kind: Kind, block: &mut [u32], n: u32, member: u32, slot: u32, op_type: u32, value: &[u32]) -> u32;
    fn reply(block: &mut [u32], n: u32, member: u32, records: &[u32], seals: u32, pairs: &mut [u32]) -> u32;
    fn outcome(block: &mut [u32], n: u32, member: u32, outcome: u32, returned: &mut [u32]) -> u32;
    fn crash(block: &mut [u32], n: u32, member: u32) -> u32;
    fn submit(entries: &mut [u32], n: u32, member: u32, slot: u32, op_type: u32, count: u32, records: &mut [u32]) -> u32;
    fn commit(entries: &mut [u32], n: u32, record: &[u32], outcome: &mut [u32]) -> u32;
}

#[derive(Clone, Copy, Debug)]
pub enum Call {
    Read { n: u32 },
    Write { n: u32 },
    Begin { kind: Kind, n: u32, member: u32, slot: u32, op_type: u32 },
    Reply { n: u32, member: u32, seals: u32 },
    Outcome { n: u32, member: u32, outcome: u32 },
    Crash { n: u32, member: u32 },
    Submit { n: u32, member: u32, slot: u32, op_type: u32, count: u32 },
    Commit { n: u32 },
}

/// How many calls there are.
pub const CALLS: usize = 9;
pub const NAMES: [&str; CALLS] = ["read", "write", "begin", "reply", "outcome", "crash", "submit", "commit", "auction begin"];

/// What a call is lent beside its numbers; a part that it has not is empty.
#[derive(Clone, Debug, Default)]
pub struct Lent {
    pub words: Vec<u32>,   // block or entries
    pub bytes: Vec<u8>,    // message or output
    pub given: Vec<u32>,   // value, records, record, fields to write
    pub results: Vec<u32>, // fields read, written, pairs, returned, records, outcome
}

impl Call {
    /// The place in NAMES.
    pub fn place(&self) -> usize {
        match self {
            Call::Read { .. } => 0,
            Call::Write { .. } => 1,
            Call::Begin { kind: AUCTION, .. } => 8,
            Call::Begin { .. } => 2,
            Call::Reply { .. } => 3,
            Call::Outcome { .. } => 4,
            Call::Crash { .. } => 5,
            Call::Submit { .. } => 6,
            Call::Commit { .. } => 7,
        }
    }

    /// How many words the call is given, and how many results it has.
    pub fn lengths(&self) -> (usize, usize) {
        use crate::flat::{FIELDS, RECORD, RECORDS};
        match self {
            Call::Read { .. } => (0, FIELDS),
            Call::Write { .. } => (FIELDS, 1),
            Call::Begin { .. } => (8, 0),
            Call::Reply { .. } => (RECORDS, 1),
            Call::Outcome { .. } => (0, 9),
            Call::Crash { .. } => (0, 0),
            Call::Submit { .. } => (0, RECORDS),
            Call::Commit { .. } => (RECORD, 1),
        }
    }

    pub fn run<C: Calls>(&self, words: &mut [u32], bytes: &mut [u8], given: &[u32], results: &mut [u32]) -> u32 {
        match *self {
            Call::Read { n } => C::read(bytes, n, results),
            Call::Write { n } => C::write(given, n, bytes, results),
            Call::Begin { kind, n, member, slot, op_type } => C::begin(kind, words, n, member, slot, op_type, given),
            Call::Reply { n, member, seals } => C::reply(words, n, member, given, seals, results),
            Call::Outcome { n, member, outcome } => C::outcome(words, n, member, outcome, results),
            Call::Crash { n, member } => C::crash(words, n, member),
            Call::Submit { n, member, slot, op_type, count } => C::submit(words, n, member, slot, op_type, count, results),
            Call::Commit { n } => C::commit(words, n, given, results),
        }
    }
}
