// Members that read their own slots: what request (a) of document 02 says,
// worked out by hand. Slot 1 is read, of a board of 2 where nothing else is said.

use crate::board::*;
use crate::reference::{Book, Call, Line};
use crate::{deliver_ok, last_word, run_script, whole};

pub fn all() {
    unwritten();
    read_back();
    overtaken();
    crashed();
    carried();
    stored_by_other_rules();
    member_half();
    host_half();
    counted();
    onboarding();
    println!("ok own reads");
}

/// A record of slot 1 with this first row; no other row of slot 1's moves.
fn record(member: u32, op_type: u32, count: u32, value: u32, row: [u32; 2]) -> Record {
    Record { member, slot: 1, op_type, count, sheet: last_word(value), matrix: vec![row.to_vec(), vec![0, 0]] }
}

fn newest_and_stored(table: &[u32]) -> (Record, Record) {
    let entry = entry_of(table, 1);
    (entry.newest, entry.stored)
}

/// Begins a read of slot 1 and takes so many delivers.
fn read_so_far(table: &mut Vec<u32>, member: u32, delivers: u32) {
    assert_eq!(COMMON.begin(table, member, 1, READ, &[0; 8]), 0);
    for _ in 0..delivers {
        assert_eq!(deliver_ok(table, member), None);
    }
}

fn unwritten() {
    for n in [1, 2, 12] {
        let mut table = new_table(n);
        for count in 1..=3 {
            assert_eq!(whole(&mut table, 1, 1, READ, 0), Some([0; 8]));
            let mut expected = Record { op_type: READ, count, ..opening_record(n, 1) };
            expected.matrix[0][0] = count;
            let (newest, stored) = newest_and_stored(&table);
            assert_eq!((&newest, &stored), (&expected, &expected));
        }
        assert_eq!(whole(&mut table, n, 1, READ, 0), Some([0; 8]));
    }
}

/// Own write, own read, another's read, and once more: nobody halts.
fn read_back() {
    let mut table = new_table(2);
    whole(&mut table, 1, 1, WRITE, 77);
    assert_eq!(newest_and_stored(&table).1, record(1, WRITE, 1, 77, [1, 0]));
    assert_eq!(whole(&mut table, 1, 1, READ, 0), Some(last_word(77)));
    let by_owner = record(1, READ, 2, 77, [2, 0]);
    assert_eq!(newest_and_stored(&table), (by_owner.clone(), by_owner.clone()));
    // Another's read becomes the newest record alone.
    assert_eq!(whole(&mut table, 2, 1, READ, 0), Some(last_word(77)));
    assert_eq!(newest_and_stored(&table), (record(2, READ, 1, 0, [2, 1]), by_owner));
    whole(&mut table, 1, 1, WRITE, 78);
    assert_eq!(newest_and_stored(&table).1, record(1, WRITE, 3, 78, [3, 1]));
    assert_eq!(whole(&mut table, 2, 1, READ, 0), Some(last_word(78)));
    assert_eq!(whole(&mut table, 1, 1, READ, 0), Some(last_word(78)));
    assert_eq!(newest_and_stored(&table).1, record(1, READ, 4, 78, [4, 2]));
    assert_eq!(whole(&mut table, 1, 1, READ, 0), Some(last_word(78)));
    assert_eq!(whole(&mut table, 2, 1, READ, 0), Some(last_word(78)));
}

/// The first submits, then the second, which alone is accepted.
fn cross(table: &mut Vec<u32>, first: u32, second: u32) {
    read_so_far(table, first, 1);
    read_so_far(table, second, 1);
    for member in [first, second] {
        deliver_ok(table, member);
        deliver_ok(table, member);
    }
    assert_eq!((phase_of(table, first), phase_of(table, second)), (ABORTED_SENT, ACCEPTED_SENT));
    assert_eq!(deliver_ok(table, first), None);
    assert_eq!(deliver_ok(table, second), Some([0; 8]));
}

fn overtaken() {
    let mut table = new_table(2);
    cross(&mut table, 1, 2);
    assert_eq!(newest_and_stored(&table), (record(2, READ, 1, 0, [0, 1]), opening_record(2, 1)));
    cross(&mut table, 2, 1);
    let by_owner = record(1, READ, 2, 0, [2, 1]);
    assert_eq!(newest_and_stored(&table), (by_owner.clone(), by_owner));
    whole(&mut table, 2, 1, READ, 0);
    assert_eq!(newest_and_stored(&table).0, record(2, READ, 3, 0, [2, 3]));
}

/// In each phase: what is delivered after it, and what is stored then.
fn crashed() {
    let written = record(1, WRITE, 1, 9, [1, 0]);
    let read = record(1, READ, 2, 9, [2, 0]);
    let cases = [(0, 0, &written), (1, 10, &written), (2, 0, &read), (3, 10, &read)];
    for (delivers, answer, stored) in cases {
        let mut table = new_table(2);
        whole(&mut table, 1, 1, WRITE, 9);
        read_so_far(&mut table, 1, delivers);
        assert_eq!(crash(&mut table, 1), 0);
        assert_eq!(deliver(&mut table, 1).number, answer);
        assert_eq!(deliver(&mut table, 1).number, 10);
        assert_eq!(&newest_and_stored(&table).1, stored);
        for _ in 0..2 {
            assert_eq!(whole(&mut table, 2, 1, READ, 0), Some(last_word(9)));
        }
        assert_eq!(&newest_and_stored(&table).1, stored);
    }
}

/// The last accepted own sheet, not an aborted one, nor the one given to begin.
fn carried() {
    let mut table = new_table(2);
    whole(&mut table, 1, 1, WRITE, 5);
    COMMON.begin(&mut table, 1, 1, WRITE, &last_word(6));
    deliver_ok(&mut table, 1);
    assert_eq!(whole(&mut table, 2, 1, READ, 0), Some(last_word(5)));
    for phase in [COMMIT_SENT, ABORTED_SENT, IDLE] {
        deliver_ok(&mut table, 1);
        assert_eq!(phase_of(&table, 1), phase);
    }
    assert_eq!(whole(&mut table, 1, 1, READ, 7), Some(last_word(5)));
    assert_eq!(newest_and_stored(&table).1, record(1, READ, 3, 5, [3, 1]));
    assert_eq!(whole(&mut table, 2, 1, READ, 0), Some(last_word(5)));
}

/// The halt number of a member that reads slot 1 now, on a copy of the table.
fn halt_at_next(table: &[u32], member: u32) -> u32 {
    let mut table = table.to_vec();
    read_so_far(&mut table, member, 2);
    block_of(&table, member).halt_number
}

/// Were an own read not stored, the next caller would halt with 25, were
/// another's read stored, with 24: the record is put back or in by hand.
fn stored_by_other_rules() {
    for written in [false, true] {
        let mut table = new_table(2);
        if written {
            whole(&mut table, 1, 1, WRITE, 3);
        }
        let mut entry = entry_of(&table, 1);
        whole(&mut table, 1, 1, READ, 0);
        let by_owner = entry_of(&table, 1);
        assert_eq!([halt_at_next(&table, 1), halt_at_next(&table, 2)], [0, 0]);
        entry.newest = by_owner.newest.clone();
        put_entry(&mut table, 1, &entry);
        assert_eq!([halt_at_next(&table, 1), halt_at_next(&table, 2)], [25, 25]);
        put_entry(&mut table, 1, &by_owner);
        whole(&mut table, 2, 1, READ, 0);
        let mut entry = entry_of(&table, 1);
        entry.stored = entry.newest.clone();
        put_entry(&mut table, 1, &entry);
        assert_eq!([halt_at_next(&table, 1), halt_at_next(&table, 2)], [24, 24]);
    }
}

/// A host shows the member another sheet of its own than it knows: the read
/// carries the known one and returns the shown one, and the known one stays.
fn member_half() {
    let mut block = block_from_words(&vec![0; block_words(2)], 2);
    block.last_sheet = last_word(5);
    let mut words = block_to_words(&block);
    let submit = COMMON.half_begin(&mut words, 2, 1, 1, READ, &last_word(7));
    assert_eq!(submit, Ok(Submit { member: 1, slot: 1, op_type: READ, count: 1 }));
    let newest = record(2, READ, 4, 0, [0, 4]);
    let stored = record(1, WRITE, 0, 8, [0, 2]);
    let taken = half_take_reply(&mut words, 2, 1, 3, &newest, &stored).unwrap();
    assert_eq!(taken, Taken { commit: Some(record(1, READ, 1, 5, [1, 4])), pairs: 10 });
    assert_eq!(half_take_outcome(&mut words, 2, 1, ACCEPTED), Answer { number: 0, returned: Some(last_word(8)) });
    block.own_counts[0] = 1;
    block.accepted_counts[0] = 1;
    block.known[0] = vec![1, 4];
    assert_eq!(block_from_words(&words, 2), block);
}

/// Whose record it is decides, also where no honest member would send it.
fn host_half() {
    let mut entries = new_table(2)[entries_start(2)..].to_vec();
    let by_owner = record(1, READ, 6, 1, [9, 8]);
    let by_other = record(2, READ, 7, 2, [0, 3]);
    let refused = record(2, WRITE, 7, 3, [0, 4]);
    let submit = |record: &Record| Submit { member: record.member, slot: record.slot, op_type: record.op_type, count: record.count };
    let opening = opening_record(2, 1);
    assert_eq!(host_submit(&mut entries, 2, &submit(&by_owner)), Ok((opening.clone(), opening)));
    assert_eq!(host_commit(&mut entries, 2, &by_owner), Ok(ACCEPTED));
    assert_eq!(host_commit(&mut entries, 2, &by_owner), Ok(ABORTED));
    assert_eq!(host_submit(&mut entries, 2, &submit(&by_other)), Ok((by_owner.clone(), by_owner.clone())));
    let before = entries.clone();
    assert_eq!(host_submit(&mut entries, 2, &submit(&refused)), Err(7));
    assert_eq!(host_commit(&mut entries, 2, &refused), Err(7));
    assert_eq!(entries, before);
    assert_eq!(host_commit(&mut entries, 2, &by_other), Ok(ACCEPTED));
    let entry = entry_in(&entries, 2, 1);
    assert_eq!((entry.newest, entry.stored), (by_other, by_owner));
}

/// In the book: an own read is in the history as any other operation.
fn counted() {
    let mut book = Book::new(2, COMMON.limit);
    let operations = [(1, WRITE), (1, READ), (2, READ)];
    for (member, op_type) in operations {
        let sheet = last_word(77);
        assert_eq!(book.call(&Call::Begin { member, slot: 1, op_type, sheet }), (0, None));
        for _ in 0..3 {
            assert_eq!(book.call(&Call::Deliver { member }), (0, None));
        }
        let returned = if op_type == READ { Some(sheet) } else { None };
        assert_eq!(book.call(&Call::Deliver { member }), (0, returned));
    }
    let lines = operations.map(|(member, op_type)| Line { member, slot: 1, op_type, sheet: last_word(77) });
    assert_eq!(book.history, lines);
    assert_eq!(book.members[0].begins, [2, 0]);
    let another_s = Call::Begin { member: 2, slot: 1, op_type: WRITE, sheet: [0; 8] };
    assert_eq!(book.call(&another_s), (7, None));
}

/// Member 1 reads its sheet back before member 2 reads it.
fn onboarding() {
    let mut script = String::from("members 2\n");
    for (begin, member) in [("write 1 77", 1), ("read 1 1", 1), ("read 2 1", 2)] {
        script += &format!("{}\n", begin);
        script += &format!("deliver {}\n", member).repeat(4);
    }
    let expected = "board 2\n\
        1 0 1 -\n2 0 2 -\n3 0 3 -\n4 0 4 -\n5 0 0 -\n\
        6 0 1 -\n7 0 2 -\n8 0 3 -\n9 0 4 -\n10 0 0 77\n\
        11 0 1 -\n12 0 2 -\n13 0 3 -\n14 0 4 -\n15 0 0 77\n";
    assert_eq!(run_script(script.as_bytes()), expected);
}
