// Runs through the library beside the simulator and the book, which reach the
// limit of their kind: whole ones, from the opening, and ones that start near it.

use crate::board::*;
use crate::reference::{self, Book};
use crate::rng::Rng;
use crate::{both, fail, useful_call, Call, Tally, BESIDE_THE_BOOK};

struct Run<'a> {
    kind: Kind,
    table: Vec<u32>,
    book: Book,
    tally: &'a mut Tally,
}

/// The call as the book is fed it.
fn for_the_book(call: &Call) -> reference::Call {
    match call {
        Call::Begin { member, slot, op_type, value, .. } => {
            let sheet = value[..].try_into().expect("a run's values have 8 words");
            reference::Call::Begin { member: *member, slot: *slot, op_type: *op_type, sheet }
        }
        Call::Deliver { member, .. } => reference::Call::Deliver { member: *member },
        Call::Crash { member } => reference::Call::Crash { member: *member },
        Call::Open { .. } => panic!("a run has one opening"),
    }
}

impl Run<'_> {
    /// From the kind's own opening.
    fn new(kind: Kind, n: u32, tally: &mut Tally) -> Run<'_> {
        let mut table = vec![7; table_words(n)];
        both(&mut table, &Call::Open { kind, n }, tally);
        Run { kind, table, book: Book::new(n, kind.limit), tally }
    }

    /// The number, on which the library, the simulator and the book agree.
    fn call(&mut self, call: &Call) -> u32 {
        let (number, out) = both(&mut self.table, call, self.tally);
        let (by_book, sheet) = self.book.call(&for_the_book(call));
        let returned = if out.first() == Some(&1) { Some(&out[1..]) } else { None };
        if (number, returned) != (by_book, sheet.as_ref().map(|words| &words[..])) {
            fail(&format!("{:?}: answered {} {:?}, in the book {} {:?}", call, number, returned, by_book, sheet));
        }
        for member in 1..=self.book.n {
            if phase_of(&self.table, member) != self.book.phase(member) {
                fail(&format!("{:?}: phase of {} is not the book's {}", call, member, self.book.phase(member)));
            }
        }
        self.tally.count_answer(BESIDE_THE_BOOK, number);
        number
    }

    fn begin(&mut self, member: u32, slot: u32, op_type: u32, last: u32) -> u32 {
        self.call(&Call::Begin { kind: self.kind, member, slot, op_type, value: vec![1, 2, 3, 4, 5, 6, 7, last] })
    }

    fn deliver(&mut self, member: u32) -> u32 {
        self.call(&Call::Deliver { member, returned_words: 9 })
    }

    fn must(&self, what: &str, number: u32, expected: u32) {
        if number != expected {
            fail(&format!("{}: answered {}, expected {}", what, number, expected));
        }
    }
}

/// All operations that an auction board has for a member on its slot. Every
/// seventh is overtaken by its neighbour's read.
fn whole_run(n: u32, tally: &mut Tally) {
    let mut run = Run::new(AUCTION, n, tally);
    let (member, neighbour) = (n, 1);
    for operation in 1..=9_999 {
        let op_type = if operation % 3 == 0 { READ } else { WRITE };
        let number = run.begin(member, member, op_type, operation);
        run.must("begin below the limit", number, 0);
        let overtaken = n > 1 && operation % 7 == 0;
        run.deliver(member);
        if overtaken {
            run.begin(neighbour, member, READ, 0);
            run.deliver(neighbour);
        }
        for _ in 0..3 {
            run.deliver(member);
        }
        for _ in 0..if overtaken { 3 } else { 0 } {
            run.deliver(neighbour);
        }
    }
    for op_type in [READ, WRITE] {
        let number = run.begin(member, member, op_type, 0);
        run.must("begin at the limit", number, 9);
    }
    let history = run.book.history.len();
    if history != 9_999 {
        fail(&format!("{} operations were accepted, expected 9,999", history));
    }
}

pub fn fixed(tally: &mut Tally) {
    for n in [1, 4] {
        whole_run(n, tally);
    }
}

/// Every own count is some below the limit, in the table and in the book.
pub fn near_the_limit(rng: &mut Rng, kind: Kind, n: u32, tally: &mut Tally) {
    let mut run = Run::new(kind, n, tally);
    for member in 1..=n {
        let mut block = block_of(&run.table, member);
        for k in 0..n as usize {
            block.own_counts[k] = kind.limit - rng.between(0, 3);
        }
        put_block(&mut run.table, member, &block);
        run.book.members[member as usize - 1].begins = block.own_counts;
    }
    let crash_once_in = *rng.pick(&[60, 100_000]);
    for _ in 0..30 * n.min(5) {
        let call = useful_call(rng, kind, n, &run.table, crash_once_in);
        run.call(&call);
    }
}
