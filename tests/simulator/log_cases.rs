// Logs with their verdicts by hand, clause by clause (document 02, request
// (l)): where a clause just holds, and where it fails alone. Then what is refused.

use crate::board::{Sheet, READ, WRITE};
use crate::log::{Clause, Clause::*, Row, MOST_ROWS};

const MAX: u32 = u32::MAX;

/// A log, and the clause that alone fails in it; none where the log holds.
pub struct Case {
    pub name: &'static str,
    pub n: u32,
    pub log: Vec<Row>,
    pub fails: Option<Clause>,
}

fn yes(name: &'static str, n: u32, log: &[Row]) -> Case {
    Case { name, n, log: log.to_vec(), fails: None }
}

fn no(clause: Clause, name: &'static str, n: u32, log: &[Row]) -> Case {
    Case { fails: Some(clause), ..yes(name, n, log) }
}

/// Two values have no word in common; 0 stands for zeros.
pub fn value(number: u32) -> Sheet {
    std::array::from_fn(|word| if number == 0 { 0 } else { 10 * number + word as u32 })
}

/// The positions are those of begin, acceptance and end.
pub fn write(member: u32, number: u32, [begin, acceptance, end]: [u32; 3]) -> Row {
    Row { member, op_type: WRITE, slot: member, value: value(number), begin, acceptance, end }
}

pub fn read(member: u32, slot: u32, number: u32, positions: [u32; 3]) -> Row {
    Row { op_type: READ, slot, ..write(member, number, positions) }
}

pub fn cases() -> Vec<Case> {
    let mut cases = vec![yes("no rows", 1, &[]), yes("no rows", 12, &[])];
    cases.extend(members());
    cases.extend(slots());
    cases.extend(types());
    cases.extend(begins());
    cases.extend(own_slots());
    cases.extend(acceptances());
    cases.extend(begins_and_acceptances());
    cases.extend(ends());
    cases.extend(rows_without_end());
    cases.extend(rows_of_a_member());
    cases.extend(opening_values());
    cases.extend(written_values());
    cases.extend(last_writes());
    cases.extend(single_words());
    cases.extend(shared_positions());
    cases.extend(high_positions());
    cases.extend(most_rows());
    cases
}

// ---------------------------------------------------------------- one row

fn members() -> Vec<Case> {
    let mut cases = Vec::new();
    for n in 1..=12 {
        cases.push(yes("the last member", n, &[read(n, 1, 0, [1, 2, 3])]));
        for member in [0, n + 1, n + 256, MAX] {
            cases.push(no(Member, "a member that is not there", n, &[read(member, 1, 0, [1, 2, 3])]));
            cases.push(no(Member, "the same behind a good row", n, &[write(1, 5, [1, 2, 3]), read(member, 1, 0, [4, 5, 0])]));
        }
    }
    cases
}

fn slots() -> Vec<Case> {
    let mut cases = Vec::new();
    for n in 1..=12 {
        cases.push(yes("a read of the last slot", n, &[read(1, n, 0, [1, 2, 3])]));
        cases.push(yes("a write to the last slot", n, &[write(n, 5, [1, 2, 3])]));
        for slot in [0, n + 1, n + 256, MAX] {
            cases.push(no(Slot, "a slot that is not there", n, &[read(1, slot, 0, [1, 2, 3])]));
            cases.push(no(Slot, "the same without an end", n, &[read(n, slot, 5, [1, 2, 0])]));
        }
    }
    cases
}

fn types() -> Vec<Case> {
    let mut cases = Vec::new();
    for op_type in [0, 3, 257, 258, MAX] {
        for slot in [1, 2] {
            for number in [0, 5] {
                let odd = Row { op_type, ..read(1, slot, number, [1, 2, 3]) };
                cases.push(no(Type, "a type that is none", 2, &[odd]));
                cases.push(no(Type, "the same last", 2, &[write(2, 6, [1, 2, 3]), Row { begin: 4, acceptance: 5, end: 0, ..odd }]));
            }
        }
    }
    cases
}

fn begins() -> Vec<Case> {
    vec![
        yes("a begin at 1", 2, &[read(1, 2, 0, [1, 2, 3])]),
        no(Begin, "a read's begin at 0", 2, &[read(1, 2, 0, [0, 2, 3])]),
        no(Begin, "a write's begin at 0", 2, &[write(1, 5, [0, 1, 2])]),
        no(Begin, "the same without an end", 2, &[write(1, 5, [0, 1, 0])]),
        no(Begin, "a begin at 0 behind another member's row", 2, &[write(1, 5, [1, 2, 3]), read(2, 1, 5, [0, 3, 4])]),
    ]
}

fn own_slots() -> Vec<Case> {
    let astray = |member: u32, slot: u32, positions: [u32; 3]| Row { slot, ..write(member, 5, positions) };
    let mut cases = vec![
        yes("reads of every slot", 2, &[read(1, 1, 0, [1, 2, 3]), read(1, 2, 0, [4, 5, 6])]),
        no(OwnSlot, "a write to another's slot", 2, &[astray(1, 2, [1, 2, 3])]),
        no(OwnSlot, "a write to a lower slot", 2, &[astray(2, 1, [1, 2, 3])]),
        no(OwnSlot, "the same without an end", 2, &[astray(2, 1, [1, 2, 0])]),
        no(OwnSlot, "a write of zeros to another's slot", 2, &[Row { value: [0; 8], ..astray(1, 2, [1, 2, 3]) }]),
        no(OwnSlot, "a write to another's slot that is read", 3, &[astray(1, 2, [1, 2, 3]), read(3, 2, 5, [4, 5, 6])]),
    ];
    cases.extend((1..=11).map(|member| no(OwnSlot, "a write to the next slot", 12, &[astray(member, member + 1, [1, 2, 3])])));
    cases
}

fn begins_and_acceptances() -> Vec<Case> {
    vec![
        yes("begin just below acceptance", 2, &[read(1, 2, 0, [7, 8, 9])]),
        no(BeginBelow, "begin and acceptance equal", 2, &[read(1, 2, 0, [8, 8, 9])]),
        no(BeginBelow, "the same without an end", 2, &[write(1, 5, [8, 8, 0])]),
        no(BeginBelow, "begin above acceptance", 2, &[read(1, 2, 0, [9, 8, 10])]),
        no(BeginBelow, "begin above the end too", 2, &[write(1, 5, [11, 8, 10])]),
        no(BeginBelow, "acceptance at 0", 2, &[read(1, 2, 0, [1, 0, 3])]),
        no(BeginBelow, "behind another's row", 2, &[write(2, 5, [1, 2, 3]), read(1, 2, 5, [4, 4, 5])]),
    ]
}

fn ends() -> Vec<Case> {
    let mut cases = vec![
        yes("acceptance just below the end", 2, &[write(1, 5, [3, 5, 6])]),
        yes("an end far above", 2, &[write(1, 5, [3, 5, 900])]),
        yes("no end", 2, &[write(1, 5, [3, 5, 0])]),
        no(EndAbove, "behind another's row", 2, &[write(2, 5, [1, 2, 3]), write(1, 5, [4, 5, 5])]),
    ];
    for end in 1..=5 {
        cases.push(no(EndAbove, "a write's end not above acceptance", 2, &[write(1, 5, [3, 5, end])]));
        cases.push(no(EndAbove, "a read's end not above acceptance", 2, &[read(1, 2, 0, [3, 5, end])]));
    }
    cases
}

// ---------------------------------------------------------------- rows beside each other

fn acceptances() -> Vec<Case> {
    let first = write(1, 5, [1, 6, 20]);
    vec![
        yes("acceptances one apart", 3, &[first, read(2, 1, 5, [1, 7, 8])]),
        no(Rising, "acceptances equal", 3, &[first, read(2, 1, 5, [1, 6, 8])]),
        no(Rising, "acceptances one below", 3, &[first, read(2, 1, 5, [1, 5, 8])]),
        no(Rising, "the same without ends", 3, &[write(1, 5, [1, 6, 0]), write(2, 5, [1, 5, 0])]),
        no(Rising, "above the first but not the last", 3, &[first, write(2, 5, [1, 9, 12]), write(3, 5, [1, 8, 12])]),
        no(Rising, "the last two equal", 3, &[first, write(2, 5, [1, 9, 12]), write(3, 5, [1, 9, 12])]),
        no(Rising, "the first two equal", 3, &[first, write(2, 5, [1, 6, 12]), write(3, 5, [1, 9, 12])]),
        // Member 1's own acceptances rise.
        no(Rising, "below another member's row", 2, &[write(1, 5, [1, 2, 3]), write(2, 5, [1, 9, 12]), write(1, 6, [4, 8, 12])]),
    ]
}

fn rows_without_end() -> Vec<Case> {
    let open = write(1, 5, [1, 2, 0]);
    vec![
        yes("the last row has no end", 2, &[write(1, 5, [1, 2, 3]), write(1, 6, [4, 5, 0])]),
        yes("each member's last row has no end", 3, &[open, write(2, 6, [1, 3, 0]), read(3, 1, 9, [1, 4, 0])]),
        yes("a row without an end before another's", 2, &[open, write(2, 6, [3, 4, 5]), read(2, 1, 5, [6, 7, 8])]),
        no(BeforeEnded, "a write's row before has no end", 2, &[open, write(1, 6, [3, 4, 5])]),
        no(BeforeEnded, "both have none", 2, &[open, write(1, 6, [3, 4, 0])]),
        no(BeforeEnded, "a read's row before has no end", 2, &[read(1, 2, 0, [1, 2, 0]), read(1, 2, 0, [3, 4, 5])]),
        no(BeforeEnded, "another slot's row before has no end", 2, &[open, read(1, 2, 0, [3, 4, 5])]),
        no(BeforeEnded, "an ended row of another between", 2, &[open, write(2, 6, [3, 4, 5]), read(1, 2, 6, [6, 7, 8])]),
        no(BeforeEnded, "the row two before has no end", 2, &[open, write(1, 6, [3, 4, 5]), write(1, 7, [6, 7, 8])]),
        no(BeforeEnded, "the row before, and not the one before that", 2, &[write(1, 4, [1, 2, 3]), write(1, 5, [4, 5, 0]), write(1, 6, [6, 7, 8])]),
        no(BeforeEnded, "the next begins before that acceptance", 2, &[write(1, 5, [3, 4, 0]), write(1, 6, [1, 5, 6])]),
    ]
}

fn rows_of_a_member() -> Vec<Case> {
    let first = write(1, 5, [1, 2, 6]);
    let other = write(2, 6, [1, 3, 90]);
    let second = write(1, 6, [7, 8, 20]);
    vec![
        yes("begin just above the end before", 2, &[first, write(1, 6, [7, 8, 9])]),
        no(AboveBefore, "begin at the end before", 2, &[first, write(1, 6, [6, 8, 9])]),
        no(AboveBefore, "the same without an end", 2, &[first, write(1, 6, [6, 8, 0])]),
        no(AboveBefore, "begin one below the end before", 2, &[first, write(1, 6, [5, 8, 9])]),
        no(AboveBefore, "begin above that acceptance only", 2, &[first, read(1, 2, 0, [3, 8, 9])]),
        no(AboveBefore, "begin above that begin only", 2, &[write(1, 5, [1, 3, 6]), write(1, 6, [2, 8, 9])]),
        no(AboveBefore, "the same begin", 2, &[first, write(1, 6, [1, 8, 9])]),
        no(AboveBefore, "accepted before that end", 2, &[first, write(1, 6, [3, 4, 9])]),
        yes("a later end of another's row between", 2, &[first, other, second]),
        no(AboveBefore, "an earlier end of another's row between", 2, &[first, write(2, 6, [1, 3, 4]), write(1, 6, [5, 8, 9])]),
        no(AboveBefore, "above the end two before only", 2, &[first, second, write(1, 7, [12, 21, 22])]),
        no(AboveBefore, "at the end before", 2, &[first, second, write(1, 7, [20, 21, 22])]),
        yes("above both", 2, &[first, second, write(1, 7, [21, 22, 23])]),
        no(AboveBefore, "the second row wrong, the third above it", 2, &[first, write(1, 6, [6, 8, 20]), write(1, 7, [21, 22, 23])]),
        yes("begin below another's end before", 2, &[first, write(2, 6, [3, 4, 5])]),
    ]
}

/// What belongs to different members may have one position, and need not rise but for acceptances.
fn shared_positions() -> Vec<Case> {
    vec![
        yes("begins and ends equal", 2, &[write(1, 5, [1, 2, 4]), write(2, 5, [1, 3, 4])]),
        yes("begins and ends fall", 3, &[write(1, 5, [3, 4, 30]), write(2, 5, [2, 5, 20]), write(3, 5, [1, 6, 10])]),
        yes("a begin at another's acceptance", 2, &[write(1, 5, [1, 2, 3]), write(2, 5, [2, 4, 5])]),
        yes("a begin at another's end", 2, &[write(1, 5, [1, 2, 3]), write(2, 5, [3, 4, 5])]),
        yes("an end at another's acceptance", 2, &[write(1, 5, [1, 2, 4]), write(2, 5, [3, 4, 5])]),
        yes("an end at another's begin and acceptance", 3, &[write(1, 5, [1, 2, 4]), write(2, 5, [3, 4, 5]), write(3, 5, [4, 6, 7])]),
    ]
}

// ---------------------------------------------------------------- values

fn opening_values() -> Vec<Case> {
    let mut cases = vec![
        no(Value, "a read of another's unwritten slot", 2, &[read(1, 2, 5, [1, 2, 3])]),
        no(Value, "a read of the own unwritten slot", 2, &[read(1, 1, 5, [1, 2, 3])]),
        yes("a read of any value without an end", 2, &[read(1, 2, 5, [1, 2, 0])]),
        yes("a write below the read", 2, &[read(1, 2, 0, [1, 2, 9]), write(2, 5, [1, 3, 4])]),
        no(Value, "the value of a write below the read", 2, &[read(1, 2, 5, [1, 3, 9]), write(2, 5, [1, 4, 5])]),
        yes("a write to another slot", 2, &[write(1, 5, [1, 2, 3]), read(1, 2, 0, [4, 5, 6])]),
        no(Value, "the value of a write to another slot", 2, &[write(1, 5, [1, 2, 3]), read(1, 2, 5, [4, 5, 6])]),
        // A read is no write, whatever value stands in its row.
        yes("behind another value of a read without an end", 3, &[read(1, 2, 7, [1, 2, 0]), read(3, 2, 0, [3, 4, 5])]),
        no(Value, "the value of a read without an end", 3, &[read(1, 2, 7, [1, 2, 0]), read(3, 2, 7, [3, 4, 5])]),
    ];
    for n in 1..=12 {
        for slot in 1..=n {
            cases.push(yes("zeros of an unwritten slot", n, &[read(n, slot, 0, [1, 2, 3])]));
        }
    }
    cases
}

fn written_values() -> Vec<Case> {
    let first = write(1, 5, [1, 2, 3]);
    vec![
        yes("another's write", 2, &[first, read(2, 1, 5, [4, 5, 6])]),
        yes("a write of zeros", 2, &[write(1, 0, [1, 2, 3]), read(2, 1, 0, [4, 5, 6])]),
        no(Value, "zeros behind a write", 2, &[first, read(2, 1, 0, [4, 5, 6])]),
        no(Value, "another value behind a write", 2, &[first, read(2, 1, 6, [4, 5, 6])]),
        yes("any value behind a write, without an end", 2, &[first, read(2, 1, 6, [4, 5, 0])]),
        yes("the own write", 2, &[first, read(1, 1, 5, [4, 5, 6])]),
        no(Value, "zeros behind the own write", 2, &[first, read(1, 1, 0, [4, 5, 6])]),
        yes("a read that began before the write", 2, &[write(1, 5, [2, 4, 5]), read(2, 1, 5, [1, 6, 7])]),
        no(Value, "zeros of a read that began before the write", 2, &[write(1, 5, [2, 4, 5]), read(2, 1, 0, [1, 6, 7])]),
        yes("a write that ends behind the read", 2, &[write(1, 5, [1, 2, 9]), read(2, 1, 5, [3, 4, 5])]),
        no(Value, "zeros before the write's end", 2, &[write(1, 5, [1, 2, 9]), read(2, 1, 0, [3, 4, 5])]),
        yes("a write without an end", 2, &[write(1, 5, [1, 2, 0]), read(2, 1, 5, [3, 4, 5])]),
        no(Value, "zeros behind a write without an end", 2, &[write(1, 5, [1, 2, 0]), read(2, 1, 0, [3, 4, 5])]),
        yes("two reads of one write", 3, &[first, read(2, 1, 5, [4, 5, 6]), read(3, 1, 5, [4, 7, 8])]),
        no(Value, "the second read is wrong", 3, &[first, read(2, 1, 5, [4, 5, 6]), read(3, 1, 0, [4, 7, 8])]),
        no(Value, "the first read is wrong", 3, &[first, read(2, 1, 0, [4, 5, 6]), read(3, 1, 5, [4, 7, 8])]),
        no(Value, "the reader's own last write", 2, &[first, write(2, 6, [1, 4, 5]), read(2, 1, 6, [6, 7, 8])]),
        yes("between writes of two slots", 2, &[first, write(2, 6, [1, 4, 5]), read(2, 1, 5, [6, 7, 8])]),
    ]
}

fn last_writes() -> Vec<Case> {
    let writes = [write(1, 4, [1, 2, 3]), write(1, 5, [4, 5, 6])];
    let open = [write(1, 4, [1, 2, 3]), write(1, 5, [4, 5, 0])];
    let late = [write(1, 4, [1, 2, 3]), write(1, 5, [4, 5, 99])];
    let cleared = [write(1, 4, [1, 2, 3]), write(1, 0, [4, 5, 6])];
    let behind = |rows: [Row; 2], number: u32| [&rows[..], &[read(2, 1, number, [7, 8, 9])]].concat();
    vec![
        yes("the second write", 2, &behind(writes, 5)),
        no(Value, "the first of two writes", 2, &behind(writes, 4)),
        no(Value, "zeros behind two writes", 2, &behind(writes, 0)),
        yes("the last write, which has no end", 2, &behind(open, 5)),
        no(Value, "the last write that has an end", 2, &behind(open, 4)),
        yes("the last write, which ends behind the read", 2, &behind(late, 5)),
        no(Value, "the last write that ended before the read", 2, &behind(late, 4)),
        yes("zeros written over a value", 2, &behind(cleared, 0)),
        no(Value, "the value before zeros were written", 2, &behind(cleared, 4)),
        yes("the first value written again", 2, &[&writes[..], &[write(1, 4, [7, 8, 9]), read(2, 1, 4, [7, 9, 10])]].concat()),
    ]
}

/// Each word of a value wrong alone, behind a write and of an unwritten slot.
fn single_words() -> Vec<Case> {
    let mut cases = Vec::new();
    for word in 0..8 {
        for wrong in [1, 0x100, 0x1_0000, 0x8000_0000, MAX] {
            for (number, above) in [(0, None), (5, Some(write(1, 5, [1, 2, 3])))] {
                let mut value = value(number);
                value[word] ^= wrong;
                let log = |end: u32| -> Vec<Row> { above.into_iter().chain([Row { value, ..read(2, 1, 0, [1, 5, end]) }]).collect() };
                cases.push(no(Value, "one word is wrong", 2, &log(6)));
                cases.push(yes("one word is wrong, without an end", 2, &log(0)));
            }
        }
    }
    cases
}

// ---------------------------------------------------------------- far positions and long logs

fn high_positions() -> Vec<Case> {
    let half = 0x8000_0000;
    vec![
        yes("the last position is an acceptance", 1, &[write(1, 5, [MAX - 1, MAX, 0])]),
        yes("the last position is an end", 1, &[write(1, 5, [MAX - 2, MAX - 1, MAX])]),
        yes("all positions used", 1, &[write(1, 5, [1, 2, MAX])]),
        yes("about the middle", 1, &[write(1, 5, [half - 1, half, half + 1])]),
        yes("begin below, acceptance above the middle", 2, &[write(1, 5, [1, half, MAX]), read(2, 1, 5, [half - 1, MAX - 1, MAX])]),
        yes("rows about the middle", 1, &[write(1, 5, [1, 2, half - 1]), write(1, 6, [half, half + 1, 0])]),
        no(BeginBelow, "begin and acceptance at the last", 1, &[write(1, 5, [MAX, MAX, 0])]),
        no(BeginBelow, "begin above the middle, acceptance below", 1, &[write(1, 5, [half, half - 1, half + 1])]),
        no(EndAbove, "acceptance and end at the last", 1, &[write(1, 5, [MAX - 1, MAX, MAX])]),
        no(EndAbove, "acceptance above the middle, end below", 1, &[write(1, 5, [half - 2, half, half - 1])]),
        no(Rising, "acceptances at the last", 2, &[write(1, 5, [1, MAX, 0]), write(2, 5, [1, MAX, 0])]),
        no(Rising, "acceptances about the middle", 2, &[write(1, 5, [1, half, 0]), write(2, 5, [1, half - 1, 0])]),
        no(AboveBefore, "begin at an end above the middle", 1, &[write(1, 5, [1, 2, half]), write(1, 6, [half, half + 1, 0])]),
        no(AboveBefore, "begin below the middle, the end before above", 1, &[write(1, 5, [1, 2, half]), write(1, 6, [half - 1, half + 1, 0])]),
        no(AboveBefore, "begin below the last, the end before at it", 1, &[write(1, 5, [1, 2, MAX]), write(1, 6, [MAX - 1, MAX, 0])]),
    ]
}

/// As many rows as a log may have. What decides about the last row stands in the first, or in the one above it.
fn most_rows() -> Vec<Case> {
    let first = write(1, 5, [1, 2, 3]);
    let row = |number: u32| {
        let positions = [2 * number - 1, 2 * number, 2 * number + 1];
        if number % 2 == 0 {
            write(2, number, positions)
        } else {
            read(3, 1, 5, positions)
        }
    };
    let between: Vec<Row> = (2..MOST_ROWS as u32).map(row).collect();
    let log = |first: Row, last: Row| [&[first], &between[..], &[last]].concat();
    vec![
        yes("a read of the first write", 4, &log(first, read(4, 1, 5, [1, 2_048, 2_049]))),
        no(Value, "zeros behind the first write", 4, &log(first, read(4, 1, 0, [1, 2_048, 2_049]))),
        yes("behind the end of the first row", 4, &log(first, write(1, 6, [4, 2_048, 0]))),
        no(AboveBefore, "at the end of the first row", 4, &log(first, write(1, 6, [3, 2_048, 0]))),
        no(BeforeEnded, "the first row has no end", 4, &log(Row { end: 0, ..first }, write(1, 6, [4, 2_048, 0]))),
        yes("the last acceptance is just above the one before", 4, &log(first, write(4, 6, [4, 2_047, 0]))),
        no(Rising, "the last acceptance is the one before", 4, &log(first, write(4, 6, [4, 2_046, 0]))),
        no(Begin, "the first begin is 0", 4, &log(Row { begin: 0, ..first }, write(4, 6, [4, 2_048, 0]))),
        no(Type, "the last type is 3", 4, &log(first, Row { op_type: 3, ..write(4, 6, [4, 2_048, 0]) })),
    ]
}

// ---------------------------------------------------------------- refusals

/// n, the words of the log and of the verdict, and the answer, whatever the words are.
pub const REFUSALS: [(u32, usize, usize, u32); 34] = [
    (0, 0, 1, 1),
    (13, 0, 1, 1),
    (0, 14, 1, 1),
    (13, 14, 1, 1),
    (256 + 1, 14, 1, 1),
    (MAX, 28, 1, 1),
    (1, 1, 1, 2),
    (12, 13, 1, 2),
    (2, 15, 1, 2),
    (3, 27, 1, 2),
    (4, 29, 1, 2),
    (12, 14_335, 1, 2),
    (1, 0, 0, 2),
    (12, 14, 0, 2),
    (1, 0, 2, 2),
    (12, 14, 2, 2),
    (12, 14_336, 14, 2),
    (1, 14_350, 1, 34),
    (12, 14_350, 1, 34),
    (6, 14_364, 1, 34),
    (7, 28_672, 1, 34),
    (12, 1_400_000, 1, 34),
    // Two grounds and more: the first of 1, 2 and 34.
    (0, 13, 1, 1),
    (13, 14, 0, 1),
    (13, 14, 2, 1),
    (13, 14_350, 1, 1),
    (0, 14_351, 0, 1),
    (3, 13, 2, 2),
    (1, 14_337, 1, 2),
    (12, 14_349, 1, 2),
    (12, 14_351, 1, 2),
    (1, 14_350, 0, 2),
    (12, 14_350, 2, 2),
    (12, 14_363, 0, 2),
];
