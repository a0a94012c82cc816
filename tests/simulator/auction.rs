// Auction boards: what request (b) of document 02 says, worked out by hand.
// Limits and lengths stand here as numbers of their own.

use crate::board::*;
use crate::calls::Calls;
use crate::calls_sim::Simulator;
use crate::reference::Call;
use crate::{c_sim, deliver_ok, last_word, whole_on, Run, Tally};

pub fn all() {
    openings();
    same_opening();
    before_one();
    one_before_the_rest();
    four_to_nine();
    limits();
    per_slot_and_member();
    whole_operations();
    last_operation();
    spent_goes_on();
    half_order();
    half_limits();
    full_run();
    println!("ok auction boards");
}

// ---------------------------------------------------------------- opening

fn open_of(kind: Kind, n: u32, words: usize) -> u32 {
    let mut table = vec![0xFFFF_FFFF; words];
    let answer = c_sim::open(kind, &mut table, n);
    assert!(answer == 0 || table.iter().all(|word| *word == 0xFFFF_FFFF));
    answer
}

fn openings() {
    // n, words, the answers of the auction's and of the common opening
    let cases = [
        (1, 79, 0, 0),
        (2, 191, 0, 0),
        (3, 367, 0, 0),
        (4, 637, 0, 0),
        (5, 1031, 1, 0),
        (12, 9781, 1, 0),
        (0, 79, 1, 1),
        (0, 0, 1, 1),
        (13, 9781, 1, 1),
        (u32::MAX, 637, 1, 1),
        (4, 636, 2, 2),
        (4, 638, 2, 2),
        (4, 0, 2, 2),
        (4, 1031, 2, 2),
        (1, 78, 2, 2),
        (2, 79, 2, 2),
        (5, 1030, 1, 2), // 1 goes before 2
        (5, 637, 1, 2),
        (5, 0, 1, 2),
        (12, 9780, 1, 2),
    ];
    for (n, words, auction, common) in cases {
        assert_eq!(open_of(AUCTION, n, words), auction, "auction open {} on {} words", n, words);
        assert_eq!(open_of(COMMON, n, words), common, "open {} on {} words", n, words);
    }
}

fn same_opening() {
    for n in 1..=4 {
        let mut table = vec![0xFFFF_FFFF; table_words(n)];
        assert_eq!(AUCTION.open(&mut table, n), 0);
        assert_eq!(table, new_table(n));
    }
}

// ---------------------------------------------------------------- begin

/// Begins on a copy, with a value of so many words.
fn begin_of(kind: Kind, table: &[u32], (member, slot, op_type): (u32, u32, u32), value_words: usize) -> u32 {
    let mut copy = table.to_vec();
    let answer = c_sim::begin(kind, &mut copy, member, slot, op_type, &vec![5; value_words]);
    assert_eq!(answer == 0, copy != table);
    answer
}

/// Member 1 of a board of n in this phase, on its own slot, with this crash
/// mark and this own count on every slot.
fn board_of(n: u32, phase: u32, crash_mark: u32, count: u32) -> Vec<u32> {
    let mut table = new_table(n);
    let mut block = block_of(&table, 1);
    (block.phase, block.crash_mark) = (phase, crash_mark);
    if phase != IDLE {
        (block.slot, block.op_type) = (1, READ);
    }
    block.own_counts.fill(count);
    put_block(&mut table, 1, &block);
    table
}

/// The table's own numbers go before 1, whatever is wrong beside them.
fn before_one() {
    for (operation, value_words) in [((1, 1, WRITE), 8), ((9, 9, 9), 7)] {
        let auction = |table: &[u32]| begin_of(AUCTION, table, operation, value_words);
        let five = new_table(5);
        let mut damaged = five.clone();
        damaged[1] = 7;
        assert_eq!(auction(&damaged), 3);
        assert_eq!(auction(&five[..1030]), 2);
        assert_eq!(auction(&damaged[..1030]), 2);
        assert_eq!(auction(&[5]), 2);
        let mut twelve = new_table(12);
        *twelve.last_mut().unwrap() = 1; // a count, not a fault
        assert_eq!(auction(&twelve), 1);
        let entry = entries_start(12);
        twelve[entry] = 13;
        assert_eq!(auction(&twelve), 3);
        twelve.push(0);
        assert_eq!(auction(&twelve), 2);
        for n in [0, 13, u32::MAX] {
            twelve[0] = n;
            assert_eq!(auction(&twelve), 3);
        }
        assert_eq!(auction(&[]), 3);
    }
}

/// 1 goes before the value's length and before all that begin asks then.
fn one_before_the_rest() {
    let asked = [(1, 1, WRITE), (1, 1, READ), (1, 2, READ), (0, 1, READ), (13, 1, READ), (1, 13, READ), (1, 1, 3), (1, 2, WRITE)];
    for n in 5..=12 {
        for (phase, crash_mark, count) in [(0, 0, 0), (0, 0, 9_999), (0, 1, 0), (1, 0, 9_998), (6, 0, 9_999)] {
            let table = board_of(n, phase, crash_mark, count);
            for operation in asked {
                for value_words in [8, 7, 0] {
                    assert_eq!(begin_of(AUCTION, &table, operation, value_words), 1);
                }
            }
        }
        assert_eq!(begin_of(COMMON, &new_table(n), (1, 1, WRITE), 8), 0);
        assert_eq!(begin_of(COMMON, &new_table(n), (1, 1, WRITE), 7), 2);
    }
    for n in 1..=4 {
        assert_eq!(begin_of(AUCTION, &new_table(n), (1, 1, WRITE), 8), 0);
        for value_words in [0, 7, 9, 16] {
            assert_eq!(begin_of(AUCTION, &new_table(n), (1, 1, WRITE), value_words), 2);
            assert_eq!(begin_of(AUCTION, &new_table(n), (n + 1, 9, 9), value_words), 2);
        }
    }
}

/// On a board of 4: each number before the next, down to 9.
fn four_to_nine() {
    for (phase, crash_mark) in [(0, 1), (1, 0), (2, 0), (3, 1), (4, 0), (5, 0), (6, 0)] {
        let table = board_of(4, phase, crash_mark, 9_999);
        let auction = |member, slot, op_type| begin_of(AUCTION, &table, (member, slot, op_type), 8);
        assert_eq!([auction(0, 0, 0), auction(5, 0, 0), auction(u32::MAX, 5, 3)], [4, 4, 4]);
        assert_eq!([auction(1, 0, 0), auction(1, 5, 0), auction(1, 5, WRITE)], [5, 5, 5]);
        assert_eq!([auction(1, 2, 0), auction(1, 1, 3), auction(1, 1, u32::MAX)], [6, 6, 6]);
        assert_eq!([auction(1, 2, WRITE), auction(1, 4, WRITE)], [7, 7]);
        assert_eq!([auction(1, 1, WRITE), auction(1, 1, READ), auction(1, 3, READ)], [8, 8, 8]);
    }
    let idle = board_of(4, 0, 0, 9_999);
    let auction = |member, slot, op_type| begin_of(AUCTION, &idle, (member, slot, op_type), 8);
    assert_eq!([auction(5, 1, READ), auction(1, 5, READ), auction(1, 1, 3), auction(1, 2, WRITE)], [4, 5, 6, 7]);
    assert_eq!([auction(1, 1, WRITE), auction(1, 1, READ), auction(1, 3, READ)], [9, 9, 9]);
}

/// Own count, the auction's and the common begin.
const BY_COUNT: [(u32, u32, u32); 12] = [
    (0, 0, 0),
    (1, 0, 0),
    (9_997, 0, 0),
    (9_998, 0, 0),
    (9_999, 9, 0),
    (10_000, 9, 0),
    (10_001, 9, 0),
    (65_536 + 9_998, 9, 0),
    (0x8000_0000, 9, 0),
    (4_294_957_295, 9, 0),
    (4_294_967_294, 9, 0),
    (4_294_967_295, 9, 9),
];

fn limits() {
    for n in 1..=4 {
        for (count, auction, common) in BY_COUNT {
            let table = board_of(n, 0, 0, count);
            for operation in [(1, 1, WRITE), (1, 1, READ), (1, n, READ)] {
                for (kind, answer) in [(AUCTION, auction), (COMMON, common)] {
                    assert_eq!(begin_of(kind, &table, operation, 8), answer, "count {} on {:?}", count, kind);
                    let mut begun = table.clone();
                    kind.begin(&mut begun, operation.0, operation.1, operation.2, &[5; 8]);
                    let expected = if answer == 0 { count + 1 } else { count };
                    assert_eq!(block_of(&begun, 1).own_counts[operation.1 as usize - 1], expected);
                }
            }
        }
    }
    // Both begins leave the same words.
    let (mut one, mut other) = (board_of(4, 0, 0, 9_998), board_of(4, 0, 0, 9_998));
    assert_eq!([AUCTION.begin(&mut one, 1, 1, WRITE, &[5; 8]), COMMON.begin(&mut other, 1, 1, WRITE, &[5; 8])], [0, 0]);
    assert_eq!(one, other);
}

fn per_slot_and_member() {
    let mut table = new_table(3);
    let mut block = block_of(&table, 1);
    block.own_counts = vec![9_999, 9_998, 10_000];
    put_block(&mut table, 1, &block);
    let auction = |member, slot, op_type| begin_of(AUCTION, &table, (member, slot, op_type), 8);
    assert_eq!([auction(1, 1, WRITE), auction(1, 1, READ), auction(1, 2, READ), auction(1, 3, READ)], [9, 9, 0, 9]);
    assert_eq!([auction(2, 1, READ), auction(2, 2, WRITE), auction(3, 1, READ), auction(3, 3, READ)], [0, 0, 0, 0]);
}

// ---------------------------------------------------------------- the common steps on auction boards

/// A write, an own read, another's read, an abort and a crash.
fn whole_operations() {
    let mut table = vec![0; 637];
    assert_eq!(AUCTION.open(&mut table, 4), 0);
    assert_eq!(whole_on(AUCTION, &mut table, 1, 1, WRITE, 77), None);
    assert_eq!(whole_on(AUCTION, &mut table, 1, 1, READ, 0), Some(last_word(77)));
    assert_eq!(whole_on(AUCTION, &mut table, 4, 1, READ, 0), Some(last_word(77)));
    assert_eq!(entry_of(&table, 1).newest.matrix[0], vec![2, 0, 0, 1]);
    assert_eq!(entry_of(&table, 1).stored.count, 2);
    // Member 3 submits after member 1 and is overtaken by nobody.
    assert_eq!(AUCTION.begin(&mut table, 1, 1, WRITE, &last_word(78)), 0);
    assert_eq!(AUCTION.begin(&mut table, 3, 1, READ, &[0; 8]), 0);
    for member in [1, 3, 1, 3, 1, 3] {
        deliver_ok(&mut table, member);
    }
    assert_eq!((phase_of(&table, 1), phase_of(&table, 3)), (ABORTED_SENT, ACCEPTED_SENT));
    assert_eq!((deliver_ok(&mut table, 1), deliver_ok(&mut table, 3)), (None, Some(last_word(77))));
    // An aborted operation has used a count up.
    assert_eq!(block_of(&table, 1).own_counts, vec![3, 0, 0, 0]);
    assert_eq!(crash(&mut table, 2), 0);
    assert_eq!(crash(&mut table, 2), 11);
    assert_eq!(AUCTION.begin(&mut table, 2, 2, WRITE, &[0; 8]), 8);
    assert_eq!(deliver(&mut table, 2).number, 10);
}

/// The last one is an operation like any other; then the slot is closed to
/// its member alone.
fn last_operation() {
    let mut table = board_of(2, 0, 0, 9_998);
    assert_eq!(whole_on(AUCTION, &mut table, 1, 1, WRITE, 6), None);
    assert_eq!(entry_of(&table, 1).newest.matrix[0], vec![9_999, 0]);
    let closed = table.clone();
    assert_eq!(AUCTION.begin(&mut table, 1, 1, WRITE, &last_word(7)), 9);
    assert_eq!(AUCTION.begin(&mut table, 1, 1, READ, &[0; 8]), 9);
    assert_eq!(table, closed);
    assert_eq!(whole_on(AUCTION, &mut table, 2, 1, READ, 0), Some(last_word(6)));
    assert_eq!(whole_on(AUCTION, &mut table, 1, 2, READ, 0), Some([0; 8]));
    assert_eq!(AUCTION.begin(&mut table, 1, 2, READ, &[0; 8]), 9);
    // The common begin goes on, also past 10,000, and the auction's stays closed.
    for count in 10_000..10_003 {
        assert_eq!(whole_on(COMMON, &mut table, 1, 1, WRITE, count), None);
        assert_eq!(block_of(&table, 1).own_counts[0], count);
        assert_eq!(AUCTION.begin(&mut table, 1, 1, WRITE, &[0; 8]), 9);
    }
}

/// An operation under way is delivered whatever its count, on boards of any
/// size, and its member may crash.
fn spent_goes_on() {
    for n in [1, 4, 5, 12] {
        for count in [9_999, 10_000, u32::MAX] {
            let mut table = board_of(n, SUBMIT_SENT, 0, count);
            for phase in [REPLY_SENT, COMMIT_SENT, ACCEPTED_SENT, IDLE] {
                assert_eq!(crash(&mut table.clone(), 1), 0);
                assert_eq!(deliver(&mut table, 1).number, 0);
                assert_eq!(phase_of(&table, 1), phase);
            }
            assert_eq!(begin_of(AUCTION, &table, (1, 1, READ), 8), if n > 4 { 1 } else { 9 });
        }
    }
}

// ---------------------------------------------------------------- the member half

/// A begin of the half on a copy of a block, with a value of so many words.
fn half_of(kind: Kind, block: &[u32], n: u32, (member, slot, op_type): (u32, u32, u32), value_words: usize) -> u32 {
    let mut copy = block.to_vec();
    let answer = Simulator::begin(kind, &mut copy, n, member, slot, op_type, &vec![5; value_words]);
    assert_eq!(answer == 0, copy != block);
    answer
}

fn half_order() {
    let five = vec![0; 45 + 10 + 75];
    let mut unsound = five.clone();
    unsound[1] = 2;
    for operation in [(1, 1, WRITE), (0, 1, READ), (6, 6, 6), (1, 2, WRITE)] {
        let half = |block: &[u32], n: u32, value_words: usize| half_of(AUCTION, block, n, operation, value_words);
        for n in [0, 4, 5, 13] {
            assert_eq!([half(&five, n, 7), half(&unsound, n, 9), half(&five[1..], n, 0)], [2, 2, 2]);
        }
        for n in [0, 13, 256 + 4, u32::MAX] {
            assert_eq!([half(&five, n, 8), half(&unsound, n, 8), half(&five[1..], n, 8)], [1, 1, 1]);
        }
        assert_eq!([half(&five[1..], 5, 8), half(&unsound[1..], 5, 8), half(&[], 5, 8), half(&five, 4, 8)], [2, 2, 2, 2]);
        assert_eq!([half(&unsound, 5, 8), half(&five, 5, 8)], [3, 1]);
        for n in 6..=12 {
            assert_eq!(half(&vec![0; block_words(n)], n, 8), 1);
        }
    }
    // 1 goes before 8 and 9 too; the common half begins.
    for (phase, crash_mark, count) in [(IDLE, 0, 9_999), (IDLE, 1, 0), (HALTED, 0, 9_999)] {
        let block = block_to_words(&block_of(&board_of(5, phase, crash_mark, count), 1));
        assert_eq!(half_of(AUCTION, &block, 5, (1, 1, WRITE), 8), 1);
    }
    assert_eq!(half_of(COMMON, &five, 5, (1, 1, WRITE), 8), 0);
}

fn half_limits() {
    for (count, auction, common) in BY_COUNT {
        let block = block_to_words(&block_of(&board_of(4, 0, 0, count), 1));
        for operation in [(1, 1, WRITE), (1, 1, READ), (1, 4, READ)] {
            assert_eq!(half_of(AUCTION, &block, 4, operation, 8), auction);
            assert_eq!(half_of(COMMON, &block, 4, operation, 8), common);
        }
    }
    let spent = block_to_words(&block_of(&board_of(4, 0, 1, 9_999), 1));
    let asked = [(5, 5, 5), (1, 5, 5), (1, 2, 5), (1, 2, WRITE), (1, 1, WRITE)];
    assert_eq!(asked.map(|operation| half_of(AUCTION, &spent, 4, operation, 8)), [4, 5, 6, 7, 8]);
    let mut block = block_to_words(&block_of(&board_of(4, 0, 0, 9_998), 1));
    let submit = AUCTION.half_begin(&mut block, 4, 1, 3, READ, &[0; 8]);
    assert_eq!(submit, Ok(Submit { member: 1, slot: 3, op_type: READ, count: 9_999 }));
    assert_eq!(block[5..9], [9_998, 9_998, 9_999, 9_998]);
}

// ---------------------------------------------------------------- a run up to the limit

/// One whole operation of member 1 on its slot. Every ninth time member 2
/// submits a read between, so that it is aborted and the read is not.
fn one_more(run: &mut Run, operation: u32) {
    let op_type = if operation % 2 == 1 { WRITE } else { READ };
    let begin = |member, op_type| Call::Begin { member, slot: 1, op_type, sheet: last_word(operation) };
    assert_eq!(run.call(&begin(1, op_type)), 0, "operation {}", operation);
    let overtaken = operation % 9 == 0;
    if overtaken {
        assert_eq!(run.call(&begin(2, READ)), 0);
    }
    let order: &[u32] = if overtaken { &[1, 2, 1, 1, 1, 2, 2, 2] } else { &[1, 1, 1, 1] };
    for member in order {
        assert_eq!(run.call(&Call::Deliver { member: *member }), 0);
    }
}

/// Table, halves and book, from the opening: 9,999 operations of member 1 on
/// slot 1, and then no more; the others go on.
fn full_run() {
    let mut tally = Tally::default();
    let mut run = Run::new(AUCTION, 2, &mut tally);
    for operation in 1..=9_999 {
        one_more(&mut run, operation);
    }
    let begin = |member, slot, op_type| Call::Begin { member, slot, op_type, sheet: last_word(1) };
    for op_type in [READ, WRITE] {
        assert_eq!(run.call(&begin(1, 1, op_type)), 9);
    }
    assert_eq!(run.call(&Call::Deliver { member: 1 }), 10);
    assert_eq!(run.call(&begin(1, 2, READ)), 0);
    assert_eq!(run.call(&begin(1, 1, READ)), 8);
    assert_eq!(run.call(&begin(2, 1, READ)), 0);
    assert_eq!(block_of(&run.table, 1).own_counts, vec![9_999, 1]);
    assert_eq!(run.book.members[0].begins, [9_999, 1]);
    assert_eq!(run.book.history.len(), 9_999);
    run.replay();
    assert_eq!((tally.accepted, tally.aborted, tally.answers[9]), (9_999, 1_111, 2));
}
