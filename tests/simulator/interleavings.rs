// Drives the C interface along all interleavings of three operations of five
// steps each, and along all of them with one crash, of each member at each of
// the 16 places. By three members there are 756,756, and 36,324,288 with a
// crash; where two of the operations are one member's, one after the other,
// 3,003 and 144,144. Compares each call with the book of a run: answer, phases,
// returned. Ends with 1 where any differs, or where not all were walked. Some
// are walked once more on an auction board, up to its limit.
// Usage: interleavings [without-crashes]
//
// Interleavings that start alike share the work of their start: the table and
// the book are copied at each fork, and the last branch goes on in place.
#![allow(dead_code)]

mod board;
mod c_lib;
mod reference;

use board::{Kind, AUCTION, COMMON};
use reference::{Book, Call, Sheet};
use std::time::Instant;

const N: u32 = 3;
const STEPS: usize = 5;
const OF_THREE: u64 = 756_756; // 15! / (5! 5! 5!)
const OF_TWO: u64 = 3_003; // 15! / (10! 5!)
const CRASHES: u64 = 48; // 16 places, 3 members
const FORKS: usize = 17; // no walk forks more often

/// Three operations: member, slot and type. Those of one member follow each
/// other as they stand here.
struct Plan {
    name: &'static str,
    kind: Kind,
    left: Option<u32>, // how often each member may still begin on each slot, if that is set
    operations: [(u32, u32, u32); 3],
    all: u64, // how many interleavings there are
}

impl Plan {
    fn member(&self, op: usize) -> u32 {
        self.operations[op].0
    }

    fn slot(&self, op: usize) -> u32 {
        self.operations[op].1
    }

    /// Do those before it use up what is left to its member on its slot?
    fn spent(&self, op: usize) -> bool {
        let whose = |op: usize| (self.member(op), self.slot(op));
        let before = (0..op).filter(|before| whose(*before) == whose(op)).count();
        self.left.is_some_and(|left| before as u32 >= left)
    }

    /// Has it a step left, and has its member no operation before it under way?
    fn may_step(&self, done: &[usize; 3], op: usize) -> bool {
        let waits = (0..op).any(|before| self.member(before) == self.member(op) && done[before] < STEPS);
        done[op] < STEPS && !waits
    }
}

fn sheet_of(member: u32, last: u32) -> Sheet {
    [member, 2, 3, 5, 7, 11, 13, last]
}

#[derive(Clone)]
struct State {
    table: Vec<u32>,
    book: Book,
    done: [usize; 3],      // steps done of each operation
    submit_at: [usize; 3], // place of the submit and of the commit, 0 for none yet
    commit_at: [usize; 3],
    place: usize,          // calls made so far, the crash not counted
    crashed: Option<u32>,
}

impl State {
    fn copy_from(&mut self, other: &State) {
        self.table.copy_from_slice(&other.table);
        self.book.clone_from(&other.book);
        self.done = other.done;
        self.submit_at = other.submit_at;
        self.commit_at = other.commit_at;
        self.place = other.place;
        self.crashed = other.crashed;
    }

    /// The operation's next step, on both.
    fn step(&mut self, plan: &Plan, op: usize) {
        let (member, slot, op_type) = plan.operations[op];
        let call = if self.done[op] == 0 {
            Call::Begin { member, slot, op_type, sheet: sheet_of(member, 200 + op as u32) }
        } else {
            Call::Deliver { member }
        };
        let answer = both(plan.kind, &mut self.table, &mut self.book, &call);
        self.place += 1;
        self.done[op] += 1;
        if self.crashed != Some(member) {
            let refused = if self.done[op] == 1 { 9 } else { 10 };
            let expected = if plan.spent(op) { refused } else { 0 };
            if answer != expected {
                fail(&format!("{:?} of a member that has not crashed is answered {}, expected {}", call, answer, expected));
            }
        }
        if answer != 0 {
            return;
        }
        if self.done[op] == 2 {
            self.submit_at[op] = self.place;
        }
        if self.done[op] == 4 {
            self.commit_at[op] = self.place;
        }
    }

    fn crash(&mut self, plan: &Plan, member: u32) {
        both(plan.kind, &mut self.table, &mut self.book, &Call::Crash { member });
        self.crashed = Some(member);
    }
}

#[derive(Default)]
struct Count {
    leaves: u64,
    calls: u64,
    accepted: u64,
    aborted: u64,
    unfinished: u64,
}

struct Walk<'a> {
    plan: &'a Plan,
    crashes: bool,
    states: Vec<State>, // one for each fork on the way
    without: Count,
    with: Count,
}

fn fail(what: &str) -> ! {
    println!("DIFFERENCE: {}", what);
    std::process::exit(1);
}

fn phase_in(table: &[u32], member: u32) -> u32 {
    table[board::block_start(N, member)]
}

/// One call on the library and in the book. A begin is the kind's own.
fn both(kind: Kind, table: &mut Vec<u32>, book: &mut Book, call: &Call) -> u32 {
    let mut out = [0x5C5C_5C5Cu32; 9];
    let by_lib = match call {
        Call::Begin { member, slot, op_type, sheet } => c_lib::begin(kind, table, *member, *slot, *op_type, sheet),
        Call::Deliver { member } => c_lib::deliver(table, *member, &mut out),
        Call::Crash { member } => c_lib::crash(table, *member),
    };
    let (by_book, returned) = book.call(call);
    if by_lib != by_book {
        fail(&format!("{:?}: library {}, book {}", call, by_lib, by_book));
    }
    let mut expected = [0x5C5C_5C5Cu32; 9];
    if let Call::Deliver { .. } = call {
        if by_book == 0 {
            expected = [0; 9];
            if let Some(sheet) = returned {
                expected[0] = 1;
                expected[1..].copy_from_slice(&sheet);
            }
        }
    }
    if out != expected {
        fail(&format!("{:?}: library returned {:?}, expected {:?}", call, out, expected));
    }
    for member in 1..=N {
        if phase_in(table, member) != book.phase(member) {
            fail(&format!("{:?}: phase of {} is {}, in the book {}", call, member, phase_in(table, member), book.phase(member)));
        }
    }
    by_book
}

/// A board on which each member has written its slot once, its own counts
/// then those that the plan leaves, in the table and in the book.
fn start(plan: &Plan) -> State {
    let mut table = vec![0; c_lib::words(N) as usize];
    if c_lib::open(plan.kind, &mut table, N) != 0 {
        fail("open");
    }
    let mut book = Book::new(N, plan.kind.limit);
    for member in 1..=N {
        let call = Call::Begin { member, slot: member, op_type: board::WRITE, sheet: sheet_of(member, 100 + member) };
        both(plan.kind, &mut table, &mut book, &call);
        for _ in 0..4 {
            both(plan.kind, &mut table, &mut book, &Call::Deliver { member });
        }
        if let Some(left) = plan.left {
            let mut block = board::block_of(&table, member);
            block.own_counts.fill(plan.kind.limit - left);
            board::put_block(&mut table, member, &block);
            book.members[member as usize - 1].begins = block.own_counts;
        }
    }
    book.history.clear();
    book.aborted = 0;
    State { table, book, done: [0; 3], submit_at: [0; 3], commit_at: [0; 3], place: 0, crashed: None }
}

impl Walk<'_> {
    /// What is counted for the state of this fork.
    fn count(&mut self, fork: usize) -> &mut Count {
        if self.states[fork].crashed.is_some() {
            &mut self.with
        } else {
            &mut self.without
        }
    }

    fn copy_on(&mut self, fork: usize) {
        let (before, after) = self.states.split_at_mut(fork + 1);
        after[0].copy_from(&before[fork]);
    }

    /// All that follows the state of this fork.
    fn walk(&mut self, fork: usize) {
        if self.crashes && self.states[fork].crashed.is_none() {
            for member in 1..=N {
                self.copy_on(fork);
                self.states[fork + 1].crash(self.plan, member);
                self.with.calls += 1;
                self.walk(fork + 1);
            }
        }
        let (plan, done) = (self.plan, self.states[fork].done);
        let last = match (0..3).rev().find(|op| plan.may_step(&done, *op)) {
            Some(op) => op,
            None => return self.leaf(fork),
        };
        for op in (0..last).filter(|op| plan.may_step(&done, *op)) {
            self.copy_on(fork);
            self.step(fork + 1, op);
        }
        self.step(fork, last);
    }

    fn step(&mut self, fork: usize, op: usize) {
        self.states[fork].step(self.plan, op);
        self.count(fork).calls += 1;
        self.walk(fork);
    }

    /// Counts the verdicts, and once more by the places of submits and commits alone.
    fn leaf(&mut self, fork: usize) {
        let state = &self.states[fork];
        let mut aborted = 0;
        let mut accepted = 0;
        let mut unfinished = 0;
        for op in 0..3 {
            let committed = state.commit_at[op];
            let overtaken = (0..3).any(|other| {
                let same = other != op && self.plan.slot(other) == self.plan.slot(op);
                same && state.submit_at[other] > state.submit_at[op] && state.submit_at[other] < committed
            });
            if committed == 0 {
                unfinished += 1;
            } else if overtaken {
                aborted += 1;
            } else {
                accepted += 1;
            }
        }
        if aborted != state.book.aborted || accepted != state.book.history.len() as u64 {
            fail("the book's verdicts are not those by the places of submits and commits");
        }
        let count = self.count(fork);
        count.leaves += 1;
        count.accepted += accepted;
        count.aborted += aborted;
        count.unfinished += unfinished;
    }
}

fn report(name: &str, count: &Count, all: u64) {
    println!(
        "{}: {} of {} interleavings, {} calls, {} operations, {} accepted, {} aborted, {} without a verdict",
        name, count.leaves, all, count.calls, 3 * count.leaves, count.accepted, count.aborted, count.unfinished
    );
    if count.leaves != all {
        fail("not all interleavings were walked");
    }
}

fn walk_all(plan: &Plan, crashes: bool) {
    let began = Instant::now();
    let states = vec![start(plan); FORKS];
    let mut walk = Walk { plan, crashes, states, without: Count::default(), with: Count::default() };
    walk.walk(0);
    report(plan.name, &walk.without, plan.all);
    if crashes {
        report(&format!("{} with one crash", plan.name), &walk.with, CRASHES * plan.all);
    }
    println!("{}: {:.1} s", plan.name, began.elapsed().as_secs_f64());
}

/// On one slot every mix that has an own read in it, but for those of one
/// member alone; on several slots some. On auction boards all operations are
/// the last that their members have there, or come after it.
fn plans() -> Vec<Plan> {
    let (r, w) = (board::READ, board::WRITE);
    let plan = |name, operations, all| Plan { name, kind: COMMON, left: None, operations, all };
    let auction = |name, left, operations, all| Plan { name, kind: AUCTION, left: Some(left), operations, all };
    vec![
        plan("one slot", [(1, 3, r), (2, 3, r), (3, 3, w)], OF_THREE),
        plan("mixed slots", [(1, 1, w), (2, 1, r), (3, 2, r)], OF_THREE),
        plan("own read on one slot", [(1, 3, r), (2, 3, r), (3, 3, r)], OF_THREE),
        plan("own read, mixed slots", [(1, 1, r), (2, 1, r), (3, 2, r)], OF_THREE),
        plan("own reads of two slots", [(1, 1, r), (2, 2, r), (3, 1, r)], OF_THREE),
        plan("own write, own read", [(1, 1, w), (1, 1, r), (2, 1, r)], OF_TWO),
        plan("own read, own write", [(1, 1, r), (1, 1, w), (2, 1, r)], OF_TWO),
        plan("own read twice", [(1, 1, r), (1, 1, r), (2, 1, r)], OF_TWO),
        plan("own read, a neighbour's twice", [(1, 1, r), (2, 1, r), (2, 1, r)], OF_TWO),
        auction("auction, one slot", 1, [(1, 3, r), (2, 3, r), (3, 3, w)], OF_THREE),
        auction("auction, own write, own read", 2, [(1, 1, w), (1, 1, r), (2, 1, r)], OF_TWO),
        auction("auction, own write, a read too many", 1, [(1, 1, w), (1, 1, r), (2, 1, r)], OF_TWO),
        auction("auction, own read, a write too many", 1, [(1, 1, r), (1, 1, w), (2, 1, r)], OF_TWO),
        auction("auction, own read, a neighbour's too many", 1, [(1, 1, r), (2, 1, r), (2, 1, r)], OF_TWO),
        auction("auction, two slots", 1, [(1, 1, w), (1, 2, r), (2, 1, r)], OF_TWO),
    ]
}

fn main() {
    let args: Vec<String> = std::env::args().skip(1).collect();
    let crashes = match args.iter().map(|a| a.as_str()).collect::<Vec<_>>()[..] {
        [] => true,
        ["without-crashes"] => false,
        _ => {
            println!("usage: interleavings [without-crashes]");
            std::process::exit(2);
        }
    };
    let plans = plans();
    // All at once.
    std::thread::scope(|threads| {
        for plan in &plans {
            threads.spawn(move || walk_all(plan, crashes));
        }
    });
    println!("all agreed");
}
