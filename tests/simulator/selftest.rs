// Tests of the simulator on its own.
// Usage: selftest [SEED] [RUNS PER N]
#![allow(dead_code)]

mod asked;
mod asked_cases;
mod auction;
mod bill;
mod bill_cases;
mod billed;
mod board;
mod c_sim;
mod calls;
mod calls_sim;
mod cause;
mod cause_cases;
mod caused;
mod fixed_scripts;
mod flat;
mod message_cases;
mod messages;
mod overtaken;
mod overtaker;
mod own_reads;
mod random;
mod random_calls;
mod reference;
mod refusals;
mod replies;
mod rng;
mod script;
mod script_cases;
mod two_ways;

use board::*;
use messages::Message;
use reference::{Book, Call, Line};
use random::{near_reply, NearReply};
use random_calls::{random_call, Style};
use replies::{all_faults, faulty_reply, Fault, Fault::*};
use rng::Rng;

fn main() {
    let args: Vec<String> = std::env::args().collect();
    let seed: u64 = if args.len() > 1 { args[1].parse().expect("seed") } else { 20260601 };
    let runs: u32 = if args.len() > 2 { args[2].parse().expect("runs") } else { 60 };
    println!("seed {} runs per n {}", seed, runs);

    layout();
    example();
    script_forms();
    boards_to_prove();
    grounds_in_order();
    running_operations();
    halts_in_order();
    pairs_of_one_and_two(&mut Rng::new(seed));
    pairs_of_three(&mut Rng::new(seed));
    pairs_of_twelve(&mut Rng::new(seed));
    first_fault_decides(&mut Rng::new(seed));
    pairs_at_random(&mut Rng::new(seed));
    reply_grounds();
    outcome_grounds();
    host_grounds();
    own_reads::all();
    auction::all();
    overtaken::all(&mut Rng::new(seed));
    caused::all(&mut Rng::new(seed));
    billed::all(&mut Rng::new(seed));
    message_grounds();
    message_round_trips(&mut Rng::new(seed));
    random_runs(seed, runs);
    strange_tables(&mut Rng::new(seed + 1));
    println!("all passed");
}

fn last_word(value: u32) -> Sheet {
    [0, 0, 0, 0, 0, 0, 0, value]
}

// ---------------------------------------------------------------- fixed cases

fn layout() {
    for n in 1..=12u32 {
        let m = n as usize;
        assert_eq!(table_words(n), 1 + m * (71 + 2 * m + 5 * m * m));
        let table = new_table(n);
        assert_eq!(check_table(&table), 0);
        let mut again = table.clone();
        for member in 1..=n {
            let block = block_of(&table, member);
            assert!(block_to_words(&block).iter().all(|w| *w == 0));
            put_block(&mut again, member, &block);
        }
        for slot in 1..=n {
            let entry = entry_of(&table, slot);
            assert_eq!((entry.submit_member, entry.submit_count), (0, 0));
            assert_eq!(entry.stored, opening_record(n, slot));
            assert_eq!(entry.newest, opening_record(n, slot));
            put_entry(&mut again, slot, &entry);
        }
        assert_eq!(again, table);
        // Opening reads none of the old words.
        let mut old = vec![0xFFFF_FFFF; table_words(n)];
        assert_eq!(COMMON.open(&mut old, n), 0);
        assert_eq!(old, table);
    }
    assert_eq!(table_words(12), 9781);
    println!("ok layout");
}

fn run_script(text: &[u8]) -> String {
    let mut input = text;
    let mut output = Vec::new();
    script::run(&mut input, &mut output).unwrap();
    String::from_utf8(output).unwrap()
}

fn example() {
    let mut text = String::from("members 2\nwrite 1 77\n");
    for _ in 0..4 {
        text += "deliver 1\n";
    }
    text += "read 2 1\n";
    for _ in 0..4 {
        text += "deliver 2\n";
    }
    let expected = "board 2\n1 0 1 -\n2 0 2 -\n3 0 3 -\n4 0 4 -\n5 0 0 -\n6 0 1 -\n7 0 2 -\n8 0 3 -\n9 0 4 -\n10 0 0 77\n";
    assert_eq!(run_script(text.as_bytes()), expected);
    // The last line may lack its line feed.
    assert_eq!(run_script(text.trim_end().as_bytes()), expected);
    println!("ok example");
}

fn script_forms() {
    let bad_form = [
        "", "\n", "members", "members ", "members  2", "members 02", "members 00", "members +1", "members -1",
        " members 2", "members 2 ", "members 2\r", "members\t2", "Members 2", "members 2 3", "member 2",
        "members 4294967296", "members 99999999999999999999999", "members 2\0", "members x", "deliver 1", "members 1.0",
        "\nmembers 2\n",
    ];
    for first in bad_form {
        assert_eq!(run_script(first.as_bytes()), "board refused 17\n", "{:?}", first);
    }
    for first in ["members 0", "members 13", "members 4294967295", "members 0\ndeliver 1\n"] {
        assert_eq!(run_script(first.as_bytes()), "board refused 1\n", "{:?}", first);
    }
    assert_eq!(run_script(b"members 12"), "board 12\n");
    assert_eq!(run_script(b"members 1\n"), "board 1\n");
    assert_eq!(run_script(b"members 1\n\n"), "board 1\n1 17 - -\n");
    assert_eq!(run_script(b"members 1\n\n\nx"), "board 1\n1 17 - -\n2 17 - -\n3 17 - -\n");
    let bad_lines = [
        "write 1", "write 1 2 3", "write  1 2", "write 1  2", "write 1 2 ", " write 1 2", "write 1 02", "write 01 2",
        "write 1 4294967296", "read 1", "read 1 2 3", "deliver", "deliver ", "deliver 1 ", "deliver 1 1", "crash",
        "crash 1 1", "members 2", "deliver 1\r", "deliver\t1", "deliver 1\0", "Deliver 1", "deliver +1", "deliver 00",
        "deliver 99999999999", "", " ", "deliver 1\n ",
    ];
    for line in bad_lines {
        let text = format!("members 2\n{}\n", line);
        let out = run_script(text.as_bytes());
        assert!(out.contains("17 - -"), "{:?} {:?}", line, out);
    }
    let text = b"members 3\ndeliver 0\ndeliver 4\ncrash 4294967295\nread 4 1\nread 1 0\nread 1 4\nread 3 3\nwrite 2 4294967295\nwrite 2 1\ndeliver 1\ncrash 1\ncrash 1\nread 1 2\n";
    let expected = "board 3\n1 4 - -\n2 4 - -\n3 4 - -\n4 4 - -\n5 5 0 -\n6 5 0 -\n7 0 1 -\n8 0 1 -\n9 8 1 -\n10 10 0 -\n11 0 0 -\n12 11 0 -\n13 8 0 -\n";
    assert_eq!(run_script(text), expected);
    // A read of an unwritten slot prints 0.
    let out = run_script(b"members 2\nread 1 2\ndeliver 1\ndeliver 1\ndeliver 1\ndeliver 1");
    assert!(out.ends_with("5 0 0 0\n"), "{}", out);
    // It ends after 1,000,000 steps.
    let mut long = b"members 1\n".to_vec();
    for _ in 0..1_000_003 {
        long.extend_from_slice(b"x\n");
    }
    let out = run_script(&long);
    assert_eq!(out.lines().count(), 1_000_001);
    assert!(out.ends_with("\n1000000 17 - -\n"));
    println!("ok script forms");
}

fn deliver_ok(table: &mut Vec<u32>, member: u32) -> Option<Sheet> {
    let answer = deliver(table, member);
    assert_eq!(answer.number, 0);
    answer.returned
}

fn whole(table: &mut Vec<u32>, member: u32, slot: u32, op_type: u32, value: u32) -> Option<Sheet> {
    whole_on(COMMON, table, member, slot, op_type, value)
}

/// An operation that is accepted, from its kind's begin on.
fn whole_on(kind: Kind, table: &mut Vec<u32>, member: u32, slot: u32, op_type: u32, value: u32) -> Option<Sheet> {
    assert_eq!(kind.begin(table, member, slot, op_type, &last_word(value)), 0);
    for _ in 0..3 {
        assert_eq!(deliver_ok(table, member), None);
    }
    assert_eq!(phase_of(table, member), ACCEPTED_SENT);
    deliver_ok(table, member)
}

fn boards_to_prove() {
    // P1
    assert_eq!(new_table(1).len(), 79);
    assert_eq!(COMMON.open(&mut vec![0; 79], 1), 0);
    assert_eq!(COMMON.open(&mut vec![0; 79], 0), 1);
    assert_eq!(COMMON.open(&mut vec![0; 79], 13), 1);
    assert_eq!(COMMON.open(&mut vec![0; 78], 1), 2);
    // P2 and P3
    let mut table = new_table(2);
    whole(&mut table, 1, 1, WRITE, 77);
    assert_eq!(entry_of(&table, 1).newest.matrix, vec![vec![1, 0], vec![0, 0]]);
    COMMON.begin(&mut table, 2, 1, READ, &[0; 8]);
    for _ in 0..3 {
        deliver_ok(&mut table, 2);
    }
    assert_eq!(entry_of(&table, 1).newest.matrix, vec![vec![1, 1], vec![0, 0]]);
    assert_eq!(entry_of(&table, 1).stored.member, 1);
    assert_eq!(deliver_ok(&mut table, 2), Some(last_word(77)));
    // P4 and P5
    let mut table = new_table(2);
    assert_eq!(COMMON.begin(&mut table, 1, 1, READ, &[0; 8]), 0);
    assert_eq!(COMMON.begin(&mut table, 1, 2, READ, &[0; 8]), 8);
    // P6: first messages taken: each has had its reply.
    let mut table = new_table(3);
    COMMON.begin(&mut table, 1, 3, READ, &[0; 8]);
    COMMON.begin(&mut table, 2, 3, READ, &[0; 8]);
    deliver_ok(&mut table, 1);
    deliver_ok(&mut table, 2);
    deliver_ok(&mut table, 1);
    deliver_ok(&mut table, 2);
    deliver_ok(&mut table, 1);
    assert_eq!(phase_of(&table, 1), ABORTED_SENT);
    deliver_ok(&mut table, 2);
    assert_eq!(phase_of(&table, 2), ACCEPTED_SENT);
    assert_eq!(entry_of(&table, 3).newest.matrix[2], vec![0, 1, 0]);
    // P7
    assert_eq!(deliver_ok(&mut table, 1), None);
    assert_eq!(deliver_ok(&mut table, 2), Some([0; 8]));
    whole(&mut table, 2, 2, WRITE, 5);
    assert_eq!(whole(&mut table, 1, 2, READ, 0), Some(last_word(5)));
    assert_eq!(entry_of(&table, 2).newest.matrix[1], vec![1, 1, 0]);
    assert_eq!(entry_of(&table, 2).newest.matrix[2], vec![0, 1, 0]);
    // P8
    assert_eq!(whole(&mut table, 1, 3, READ, 0), Some([0; 8]));
    assert_eq!(entry_of(&table, 3).newest.matrix[2], vec![2, 1, 0]);
    // P9
    let mut table = new_table(2);
    let mut block = block_of(&table, 1);
    block.own_counts[0] = 4_294_967_294;
    put_block(&mut table, 1, &block);
    whole(&mut table, 1, 1, WRITE, 1);
    assert_eq!(block_of(&table, 1).own_counts[0], u32::MAX);
    assert_eq!(COMMON.begin(&mut table, 1, 1, WRITE, &last_word(2)), 9);
    assert_eq!(COMMON.begin(&mut table, 1, 2, READ, &[0; 8]), 0);
    // P10
    let mut table = new_table(2);
    COMMON.begin(&mut table, 1, 1, WRITE, &last_word(9));
    deliver_ok(&mut table, 1);
    deliver_ok(&mut table, 1);
    assert_eq!(phase_of(&table, 1), COMMIT_SENT);
    assert_eq!(crash(&mut table, 1), 0);
    assert_eq!(deliver(&mut table, 1).number, 0);
    assert_eq!(deliver(&mut table, 1).number, 10);
    assert_eq!(whole(&mut table, 2, 1, READ, 0), Some(last_word(9)));
    // P11, on the board and on the half
    let mut table = new_table(2);
    let mut block = block_of(&table, 1);
    block.known[1] = vec![0, 2];
    put_block(&mut table, 1, &block);
    let mut entry = entry_of(&table, 2);
    entry.newest.matrix[1] = vec![0, 1];
    put_entry(&mut table, 2, &entry);
    COMMON.begin(&mut table, 1, 2, READ, &[0; 8]);
    let mut half = block_to_words(&block_of(&table, 1));
    deliver_ok(&mut table, 1);
    deliver_ok(&mut table, 1);
    let halted = block_of(&table, 1);
    assert_eq!((halted.phase, halted.halt_number), (HALTED, 22));
    assert_eq!((halted.first.clone(), halted.second.clone()), (zero_record(2), zero_record(2)));
    assert_eq!((halted.slot, halted.op_type), (2, READ));
    let none = half_take_reply(&mut half, 2, 1, 3, &entry.newest, &entry.stored);
    assert_eq!(none, Ok(Taken { commit: None, pairs: 1 }));
    assert_eq!(block_from_words(&half, 2), halted);
    assert_eq!(deliver(&mut table, 1).number, 10);
    assert_eq!(crash(&mut table, 1), 11);
    assert_eq!(COMMON.begin(&mut table, 1, 1, WRITE, &[0; 8]), 8);
    // P12
    for (n, commit, reply) in [(2, 60, 115), (12, 620, 1235)] {
        let mut out = vec![0; 2000];
        let record = opening_record(n, 1);
        assert_eq!(messages::write(&Message::Commit(record.clone()), n, &mut out), Ok(commit));
        let both = Message::Reply { newest: record.clone(), stored: record };
        assert_eq!(messages::write(&both, n, &mut out), Ok(reply));
    }
    println!("ok P1 to P12");
}

/// Each ground alone and before the next one.
fn grounds_in_order() {
    assert_eq!(check_table(&[]), 3);
    assert_eq!(check_table(&[0]), 3);
    assert_eq!(check_table(&[13]), 3);
    assert_eq!(check_table(&[1]), 2);
    // n out of range goes before the length, the length before the rest.
    let mut table = new_table(2);
    table[1] = 7;
    assert_eq!(check_table(&table), 3);
    table.pop();
    assert_eq!(check_table(&table), 2);
    table[0] = 13;
    assert_eq!(check_table(&table), 3);
    // Begin: 3 before 4 before 5 and so on.
    let mut table = new_table(2);
    table[1] = 7;
    assert_eq!(COMMON.begin(&mut table, 9, 9, 9, &[0; 8]), 3);
    let mut table = new_table(2);
    let mut block = block_of(&table, 1);
    block.own_counts = vec![u32::MAX; 2];
    block.crash_mark = 1;
    put_block(&mut table, 1, &block);
    assert_eq!(COMMON.begin(&mut table, 0, 0, 0, &[0; 8]), 4);
    assert_eq!(COMMON.begin(&mut table, 3, 0, 0, &[0; 8]), 4);
    assert_eq!(COMMON.begin(&mut table, 1, 0, 0, &[0; 8]), 5);
    assert_eq!(COMMON.begin(&mut table, 1, 3, 0, &[0; 8]), 5);
    assert_eq!(COMMON.begin(&mut table, 1, 1, 0, &[0; 8]), 6);
    assert_eq!(COMMON.begin(&mut table, 1, 1, 3, &[0; 8]), 6);
    assert_eq!(COMMON.begin(&mut table, 1, 2, WRITE, &[0; 8]), 7);
    assert_eq!(COMMON.begin(&mut table, 1, 1, WRITE, &[0; 8]), 8);
    assert_eq!(COMMON.begin(&mut table, 1, 1, READ, &[0; 8]), 8);
    block.crash_mark = 0;
    put_block(&mut table, 1, &block);
    assert_eq!(COMMON.begin(&mut table, 1, 1, WRITE, &[0; 8]), 9);
    assert_eq!(COMMON.begin(&mut table, 1, 1, READ, &[0; 8]), 9);
    // Words that make 3, one by one, and words that do not.
    let n = 2;
    let first = block_start(n, 1);
    let entry = entries_start(n);
    let faults: Vec<(usize, u32)> = vec![
        (first, 7),
        (first + 1, 2),
        (first + 2, 1),
        (first + 2, 20),
        (first + 2, 28),
        (first + 3, 3),
        (first + 4, 3),
        (first + first_start(n), 3),
        (first + first_start(n) + 1, 3),
        (first + first_start(n) + 2, 3),
        (first + second_start(n), 3),
        (first + second_start(n) + 1, 3),
        (first + second_start(n) + 2, 3),
        (entry, 3),
        (entry + 2, 3),
        (entry + 3, 3),
        (entry + 4, 3),
        (entry + 2 + record_words(n), 3),
        (entry + 3 + record_words(n), 3),
        (entry + 4 + record_words(n), 3),
        (first, 1), // phase 1 with slot and type 0
    ];
    for (place, word) in &faults {
        let mut table = new_table(n);
        table[*place] = *word;
        assert_eq!(check_table(&table), 3, "word {} set to {}", place, word);
    }
    let harmless: Vec<(usize, u32)> = vec![
        (first, 6),
        (first + 1, 1),
        (first + 2, 21),
        (first + 2, 27),
        (first + 3, 2),
        (first + 4, 2),
        (first + first_start(n) + 3, u32::MAX),
        (entry + 1, u32::MAX),
        (entry + 2, 0),
        (entry + 4, 0),
    ];
    for (place, word) in &harmless {
        let mut table = new_table(n);
        table[*place] = *word;
        assert_eq!(check_table(&table), 0, "word {} set to {}", place, word);
    }
}

/// Member 1 may run a read of any slot, and a write to its own alone.
fn running_operations() {
    let first = block_start(2, 1);
    for phase in 1..=5 {
        for slot in 0..=2 {
            for op_type in 0..=2 {
                let mut table = new_table(2);
                table[first] = phase;
                table[first + 3] = slot;
                table[first + 4] = op_type;
                let good = (slot != 0 && op_type == READ) || (slot == 1 && op_type == WRITE);
                assert_eq!(check_table(&table), if good { 0 } else { 3 });
            }
        }
    }
    println!("ok grounds");
}

/// A member 1 reading slot 2 of 3, with matrices that fail from 22 on, mended one by one.
fn halts_in_order() {
    let n = 3;
    let mut block = block_from_words(&vec![0; block_words(n)], n);
    block.phase = SUBMIT_SENT;
    block.slot = 2;
    block.op_type = READ;
    block.own_counts[1] = 6;
    block.accepted_counts = vec![0, 4, 1];
    block.known = vec![vec![0, 1, 0], vec![9, 3, 3], vec![1, 2, 0]];
    let mut newest = opening_record(n, 2);
    newest.matrix = vec![vec![0, 0, 1], vec![5, 3, 2], vec![2, 2, 2]];
    let mut stored = opening_record(n, 2);
    stored.member = 3;
    stored.matrix = vec![vec![0, 0, 0], vec![0, 2, 0], vec![0, 0, 9]];

    let mut seen = Vec::new();
    for seals in 0..3 {
        assert_eq!(halt_of(&block, 1, seals, &newest, &stored), Verdict { halt: 21, pairs: 0 });
    }
    seen.push(halt_of(&block, 1, 3, &newest, &stored));
    newest.matrix[1][2] = 3;
    seen.push(halt_of(&block, 1, 3, &newest, &stored));
    newest.matrix[1][0] = 4;
    seen.push(halt_of(&block, 1, 3, &newest, &stored));
    stored.member = 2;
    seen.push(halt_of(&block, 1, 3, &newest, &stored));
    stored.matrix[2][2] = 2;
    seen.push(halt_of(&block, 1, 3, &newest, &stored));
    stored.matrix[1][1] = 3;
    seen.push(halt_of(&block, 1, 3, &newest, &stored));
    newest.matrix[0][1] = 1;
    seen.push(halt_of(&block, 1, 3, &newest, &stored));
    newest.matrix[2][0] = 1;
    seen.push(halt_of(&block, 1, 3, &newest, &stored));
    let expected = [(22, 2), (23, 3), (24, 3), (25, 12), (25, 13), (26, 16), (27, 21), (0, 21)];
    assert_eq!(seen, expected.map(|(halt, pairs)| Verdict { halt, pairs }));

    let mut words = block_to_words(&block);
    let taken = half_take_reply(&mut words, n, 1, 3, &newest, &stored).unwrap();
    assert_eq!(taken.pairs, 21);
    let commit = taken.commit.unwrap();
    assert_eq!((commit.member, commit.slot, commit.op_type, commit.count), (1, 2, READ, 6));
    assert_eq!(commit.matrix, vec![vec![0, 1, 1], vec![6, 3, 3], vec![1, 2, 2]]);
    let after = block_from_words(&words, n);
    assert_eq!((after.phase, after.halt_number), (COMMIT_SENT, 0));
    assert_eq!(after.second, stored);
    println!("ok halts");
}

// ---------------------------------------------------------------- pairs

const NO_FAULT: Fault = Seals(3);

/// The ceiling.
fn most_pairs(n: u32) -> u32 {
    2 * n * n + n
}

/// Halt and pairs of a reply with these faults, from the checks and from the half.
fn verdict_on(rng: &mut Rng, n: u32, member: u32, slot: u32, faults: &[Fault]) -> (u32, u32) {
    let reply = faulty_reply(rng, n, member, slot, faults);
    let Verdict { halt, pairs } = halt_of(&reply.block, member, reply.seals, &reply.newest, &reply.stored);
    let mut words = block_to_words(&reply.block);
    let taken = half_take_reply(&mut words, n, member, reply.seals, &reply.newest, &reply.stored).unwrap();
    assert_eq!((words[2], taken.pairs), (halt, pairs));
    assert_eq!(taken.commit.is_none(), halt != 0);
    (halt, pairs)
}

/// Halt and pairs with each of the faults alone.
fn by_hand(rng: &mut Rng, n: u32, member: u32, slot: u32, expected: &[(Fault, u32, u32)]) {
    for (fault, halt, pairs) in expected {
        let found = verdict_on(rng, n, member, slot, &[*fault]);
        assert_eq!(found, (*halt, *pairs), "n {} member {} slot {} {:?}", n, member, slot, fault);
    }
}

/// Worked out by hand from request (i), like those of the next two.
fn pairs_of_one_and_two(rng: &mut Rng) {
    // None in 22, one in 23, one and one more in 25, none in 26 and 27.
    by_hand(rng, 1, 1, 1, &[(Seals(0), 21, 0), (Seals(1), 21, 0), (Accepted(true), 23, 1), (Accepted(false), 23, 1)]);
    by_hand(rng, 1, 1, 1, &[(Stored(1, 1), 25, 2), (Corner, 25, 3), (NO_FAULT, 0, 3)]);
    // On a board a stored record may be nobody's.
    let reply = faulty_reply(rng, 1, 1, 1, &[Owner(0)]);
    assert_eq!(halt_of(&reply.block, 1, 3, &reply.newest, &reply.stored), Verdict { halt: 24, pairs: 1 });
    // 1, 1, 4 and one more, 2, 1: a write and a read.
    for slot in [1, 2] {
        let other = 3 - slot;
        by_hand(rng, 2, 1, slot, &[(Seals(2), 21, 0), (Known(2), 22, 1), (Accepted(true), 23, 2), (Owner(other), 24, 2)]);
        by_hand(rng, 2, 1, slot, &[(Stored(1, 1), 25, 4), (Stored(1, 2), 25, 4), (Stored(2, 1), 25, 6), (Stored(2, 2), 25, 6)]);
        by_hand(rng, 2, 1, slot, &[(Corner, 25, 7), (Crossed(other, 1, 2), 26, 9), (Crossed(other, 2, 1), 26, 9)]);
        by_hand(rng, 2, 1, slot, &[(Ahead(other), 27, 10), (NO_FAULT, 0, 10)]);
    }
    by_hand(rng, 2, 2, 1, &[(Known(1), 22, 1), (Accepted(false), 23, 2), (Crossed(2, 1, 2), 26, 9), (Ahead(2), 27, 10)]);
}

/// 2, 1, 9 and one more, 3 for each of two rows, 2.
fn pairs_of_three(rng: &mut Rng) {
    by_hand(rng, 3, 1, 2, &[(Seals(0), 21, 0), (Known(2), 22, 1), (Known(3), 22, 2), (Accepted(true), 23, 3)]);
    by_hand(rng, 3, 1, 2, &[(Accepted(false), 23, 3), (Owner(1), 24, 3), (Owner(3), 24, 3), (Stored(1, 1), 25, 6)]);
    by_hand(rng, 3, 1, 2, &[(Stored(1, 3), 25, 6), (Stored(2, 1), 25, 9), (Stored(2, 2), 25, 9), (Stored(3, 1), 25, 12)]);
    by_hand(rng, 3, 1, 2, &[(Stored(3, 3), 25, 12), (Corner, 25, 13), (Crossed(1, 1, 2), 26, 16), (Crossed(1, 3, 1), 26, 16)]);
    by_hand(rng, 3, 1, 2, &[(Crossed(3, 1, 2), 26, 19), (Crossed(3, 2, 3), 26, 19), (Ahead(1), 27, 20), (Ahead(3), 27, 21)]);
    by_hand(rng, 3, 1, 2, &[(NO_FAULT, 0, 21)]);
    by_hand(rng, 3, 2, 2, &[(Known(1), 22, 1), (Known(3), 22, 2), (Crossed(3, 2, 1), 26, 19), (Ahead(1), 27, 20)]);
    by_hand(rng, 3, 2, 2, &[(NO_FAULT, 0, 21)]);
    by_hand(rng, 3, 3, 1, &[(Known(1), 22, 1), (Known(2), 22, 2), (Crossed(2, 1, 3), 26, 16), (Ahead(2), 27, 20), (Ahead(3), 27, 21)]);
}

/// 11, 1, 144 and one more, 12 for each of eleven rows, 11.
fn pairs_of_twelve(rng: &mut Rng) {
    by_hand(rng, 12, 5, 9, &[(Known(1), 22, 1), (Known(4), 22, 4), (Known(6), 22, 5), (Known(12), 22, 11)]);
    by_hand(rng, 12, 5, 9, &[(Accepted(true), 23, 12), (Owner(5), 24, 12), (Stored(1, 7), 25, 24), (Stored(9, 9), 25, 120)]);
    by_hand(rng, 12, 5, 9, &[(Stored(12, 1), 25, 156), (Corner, 25, 157), (Crossed(1, 1, 2), 26, 169), (Crossed(8, 9, 4), 26, 253)]);
    by_hand(rng, 12, 5, 9, &[(Crossed(10, 1, 2), 26, 265), (Crossed(12, 1, 12), 26, 289), (Ahead(1), 27, 290), (Ahead(8), 27, 297)]);
    by_hand(rng, 12, 5, 9, &[(Ahead(10), 27, 298), (Ahead(12), 27, 300), (NO_FAULT, 0, 300)]);
    by_hand(rng, 12, 12, 12, &[(Known(11), 22, 11), (Accepted(false), 23, 12), (Crossed(11, 2, 1), 26, 289), (Ahead(11), 27, 300)]);
    by_hand(rng, 12, 12, 12, &[(NO_FAULT, 0, 300)]);
}

/// Each two faults together: the first check decides, and its first place.
fn two_faults(rng: &mut Rng, n: u32, member: u32, slot: u32) {
    let all = all_faults(n, member, slot);
    let alone: Vec<(u32, u32)> = all.iter().map(|fault| verdict_on(rng, n, member, slot, &[*fault])).collect();
    for (first, one) in all.iter().enumerate() {
        for (second, other) in all.iter().enumerate() {
            let both = [*one, *other];
            if both.contains(&Corner) && both.contains(&Stored(slot, slot)) {
                continue;
            }
            let found = verdict_on(rng, n, member, slot, &both);
            assert_eq!(found, alone[first].min(alone[second]), "n {} member {} slot {} {:?}", n, member, slot, both);
        }
    }
}

fn first_fault_decides(rng: &mut Rng) {
    for n in 1..=4 {
        for member in 1..=n {
            for slot in 1..=n {
                two_faults(rng, n, member, slot);
            }
        }
    }
    println!("ok pairs by hand, and with two faults");
}

/// Never above the ceiling, and that exactly where a reply passes.
fn pairs_at_random(rng: &mut Rng) {
    let mut passed = [0; 13];
    for n in 1..=12 {
        for _ in 0..2000 {
            let NearReply { member, block, newest, stored } = near_reply(rng, n);
            let Verdict { halt, pairs } = halt_of(&block, member, 3, &newest, &stored);
            assert!(pairs <= most_pairs(n));
            if halt == 0 {
                assert_eq!(pairs, most_pairs(n));
                passed[n as usize] += 1;
            }
        }
        assert!(passed[n as usize] > 0);
    }
    println!("ok pairs: passed of 2000 for n 1 to 12 {:?}", &passed[1..]);
}

// ---------------------------------------------------------------- the halves

/// A member's block on a board of 2, with an operation on slot 2.
fn block_in(phase: u32, crash_mark: u32, op_type: u32) -> Vec<u32> {
    let mut block = block_from_words(&vec![0; block_words(2)], 2);
    (block.phase, block.crash_mark, block.slot, block.op_type) = (phase, crash_mark, 2, op_type);
    block_to_words(&block)
}

fn reply_grounds() {
    let good = opening_record(2, 2);
    let bad = Record { member: 0, ..good.clone() };
    let idle = vec![0; block_words(2)];
    let waiting = block_in(SUBMIT_SENT, 0, READ);
    let writing = block_in(SUBMIT_SENT, 0, WRITE);
    let crashed = block_in(SUBMIT_SENT, 1, READ);
    let committed = block_in(COMMIT_SENT, 0, READ);
    let reply = |words: &[u32], n: u32, member: u32, seals: u32, newest: &Record| {
        let mut words = words.to_vec();
        let before = words.clone();
        let answer = half_take_reply(&mut words, n, member, seals, newest, &good);
        if answer.is_err() {
            assert_eq!(words, before);
        }
        answer.err().unwrap_or(0)
    };
    assert_eq!(reply(&waiting, 0, 1, 3, &good), 1);
    assert_eq!(reply(&waiting, 13, 1, 3, &good), 1);
    assert_eq!(reply(&waiting[1..], 2, 1, 3, &good), 2);
    assert_eq!(reply(&[], 2, 1, 3, &good), 2);
    assert_eq!(reply(&writing, 2, 1, 3, &good), 3); // member 1 may not write slot 2
    assert_eq!(reply(&writing, 2, 7, 3, &good), 3); // nor would member 7
    assert_eq!(reply(&writing, 2, 2, 3, &good), 0); // its owner may
    assert_eq!(reply(&waiting, 2, 2, 3, &good), 0); // and may read it
    assert_eq!(reply(&waiting, 2, 7, 3, &good), 4); // as member 7 would
    assert_eq!(reply(&idle, 2, 0, 3, &good), 4);
    assert_eq!(reply(&idle, 2, 1, 9, &bad), 10);
    assert_eq!(reply(&committed, 2, 1, 3, &good), 10);
    assert_eq!(reply(&crashed, 2, 1, 9, &bad), 10);
    assert_eq!(reply(&waiting, 2, 1, 4, &good), 15);
    assert_eq!(reply(&waiting, 2, 1, 3, &bad), 15);
    assert_eq!(reply(&waiting, 2, 1, 0, &good), 0); // a halt is no refusal
}

fn outcome_grounds() {
    let outcome = |mut words: Vec<u32>, member: u32, outcome: u32| half_take_outcome(&mut words, 2, member, outcome).number;
    let committed = |op_type: u32| block_in(COMMIT_SENT, 0, op_type);
    assert_eq!(outcome(committed(WRITE), 1, 1), 3);
    assert_eq!(outcome(committed(WRITE), 2, 1), 0);
    assert_eq!(outcome(committed(READ), 2, 1), 0);
    assert_eq!(outcome(committed(READ), 5, 1), 4);
    assert_eq!(outcome(block_in(SUBMIT_SENT, 0, READ), 1, 0), 10);
    assert_eq!(outcome(committed(READ), 1, 0), 15);
    assert_eq!(outcome(committed(READ), 1, 3), 15);
    assert_eq!(outcome(committed(READ), 1, 2), 0);
}

fn host_grounds() {
    let opened = new_table(2)[entries_start(2)..].to_vec();
    let mut entries = opened.clone();
    let submit = |member: u32, slot: u32, op_type: u32| Submit { member, slot, op_type, count: 1 };
    assert_eq!(host_submit(&mut entries, 0, &submit(0, 0, 0)), Err(1));
    assert_eq!(host_submit(&mut entries, 3, &submit(0, 0, 0)), Err(2));
    assert_eq!(host_submit(&mut entries, 2, &submit(3, 0, 0)), Err(4));
    assert_eq!(host_submit(&mut entries, 2, &submit(1, 3, 0)), Err(5));
    assert_eq!(host_submit(&mut entries, 2, &submit(1, 1, 0)), Err(6));
    assert_eq!(host_submit(&mut entries, 2, &submit(1, 2, WRITE)), Err(7));
    assert_eq!(entries, opened);
    entries[2] = 3;
    assert_eq!(host_submit(&mut entries, 2, &submit(3, 0, 0)), Err(3));
    assert_eq!(host_commit(&mut entries, 2, &zero_record(2)), Err(3));
    println!("ok half grounds");
}

// ---------------------------------------------------------------- messages

fn message_grounds() {
    let n = 2;
    let mut bytes = vec![0xEE; 70];
    let record = opening_record(n, 2);
    let length = messages::write(&Message::Commit(record.clone()), n, &mut bytes).unwrap();
    assert_eq!(length, 60);
    assert!(bytes[60..].iter().all(|b| *b == 0xEE));
    bytes.truncate(60);
    assert_eq!(bytes[..8], [0, 58, 1, 3, 2, 2, 2, 2]);
    assert_eq!(messages::check(&bytes, n), 0);
    assert_eq!(messages::check(&bytes, 0), 1);
    assert_eq!(messages::check(&[], 13), 1);
    assert_eq!(messages::check(&bytes[..3], n), 12);
    assert_eq!(messages::check(&bytes[..59], n), 12);
    assert_eq!(messages::check(&bytes, 3), 15);
    for (place, byte, number) in
        [(0, 1, 12), (1, 57, 12), (2, 0, 13), (2, 2, 13), (3, 0, 14), (3, 5, 14), (3, 1, 15), (3, 2, 15), (4, 3, 15), (5, 0, 15), (5, 3, 15), (6, 0, 15), (6, 3, 15), (7, 0, 15), (7, 3, 15), (8, 9, 0), (59, 255, 0)]
    {
        let mut changed = bytes.clone();
        changed[place] = byte;
        assert_eq!(messages::check(&changed, n), number, "byte {} set to {}", place, byte);
    }
    for (outcome, number) in [(0, 15), (1, 0), (2, 0), (3, 15)] {
        assert_eq!(messages::check(&[0, 3, 1, 4, outcome], n), number);
    }
    assert_eq!(messages::check(&[0, 2, 1, 4], n), 15);
    assert_eq!(messages::check(&[0, 9, 1, 1, 1, 2, 1, 0, 0, 0, 0], n), 0);
    assert_eq!(messages::check(&[0, 9, 1, 1, 1, 2, 2, 0, 0, 0, 0], n), 0); // 7 is no ground here
    // The writer: 1, then 15, then 16.
    let mut bad = record.clone();
    bad.member = 258;
    let mut out = [7u8; 59];
    assert_eq!(messages::write(&Message::Commit(bad.clone()), 0, &mut out), Err(1));
    assert_eq!(messages::write(&Message::Commit(bad), n, &mut out), Err(15));
    assert_eq!(messages::write(&Message::Commit(record), n, &mut out), Err(16));
    assert_eq!(messages::write(&Message::Outcome(3), n, &mut out), Err(15));
    assert_eq!(out, [7u8; 59]);
    println!("ok message grounds");
}

fn message_round_trips(rng: &mut Rng) {
    let mut made = 0;
    for n in 1..=12 {
        for _ in 0..100 {
            for message in &message_cases::one_of_each(rng, n) {
                let mut out = vec![0xAB; 1300];
                let length = messages::write(message, n, &mut out).unwrap();
                assert!(out[length..].iter().all(|b| *b == 0xAB));
                assert_eq!(messages::check(&out[..length], n), 0);
                assert_eq!(messages::read(&out[..length], n), Ok(message.clone()));
                let mut exact = vec![0; length];
                assert_eq!(messages::write(message, n, &mut exact), Ok(length));
                assert_eq!(exact[..], out[..length]);
                assert_eq!(messages::write(message, n, &mut exact[1..]), Err(16));
                assert_eq!(messages::check(&out[..length + 1], n), 12);
                assert_eq!(messages::check(&out[..length - 1], n), 12);
                made += 1;
            }
        }
    }
    println!("ok message round trips: {}", made);
}

// ---------------------------------------------------------------- random runs

#[derive(Default)]
struct Tally {
    calls: u64,
    accepted: u64,
    own_reads: u64, // of the accepted ones
    aborted: u64,
    crashes: u64,
    returned: u64,
    spent: u64, // answers 9 on boards that had begun operations
    answers: [u64; 12],
}

fn call_board(kind: Kind, table: &mut Vec<u32>, call: &Call) -> Answer {
    match call {
        Call::Begin { member, slot, op_type, sheet } => {
            Answer { number: kind.begin(table, *member, *slot, *op_type, sheet), returned: None }
        }
        Call::Deliver { member } => deliver(table, *member),
        Call::Crash { member } => Answer { number: crash(table, *member), returned: None },
    }
}

fn through_bytes(message: Message, n: u32) -> Message {
    let mut bytes = vec![0; 1300];
    let length = messages::write(&message, n, &mut bytes).unwrap();
    messages::read(&bytes[..length], n).unwrap()
}

/// The two halves apart, with messages as bytes between them.
struct Apart {
    kind: Kind,
    n: u32,
    blocks: Vec<Vec<u32>>,
    entries: Vec<u32>,
    to_host: Vec<Option<Message>>,
    to_member: Vec<Option<Message>>,
}

impl Apart {
    fn new(kind: Kind, n: u32) -> Apart {
        Apart {
            kind,
            n,
            blocks: vec![vec![0; block_words(n)]; n as usize],
            entries: new_table(n)[entries_start(n)..].to_vec(),
            to_host: vec![None; n as usize],
            to_member: vec![None; n as usize],
        }
    }

    /// Does what the board did at a call that it answered 0.
    fn follow(&mut self, call: &Call) -> Option<Sheet> {
        let n = self.n;
        match call {
            Call::Begin { member, slot, op_type, sheet } => {
                let m = *member as usize - 1;
                let submit = self.kind.half_begin(&mut self.blocks[m], n, *member, *slot, *op_type, sheet).unwrap();
                self.to_host[m] = Some(through_bytes(Message::Submit(submit), n));
                None
            }
            Call::Crash { member } => {
                let m = *member as usize - 1;
                assert_eq!(half_crash(&mut self.blocks[m], n, *member), 0);
                None
            }
            Call::Deliver { member } => {
                let m = *member as usize - 1;
                if let Some(message) = self.to_host[m].take() {
                    let answer = match message {
                        Message::Submit(submit) => {
                            let (newest, stored) = host_submit(&mut self.entries, n, &submit).unwrap();
                            Message::Reply { newest, stored }
                        }
                        Message::Commit(record) => Message::Outcome(host_commit(&mut self.entries, n, &record).unwrap()),
                        _ => panic!("not for the host"),
                    };
                    self.to_member[m] = Some(through_bytes(answer, n));
                    return None;
                }
                match self.to_member[m].take().unwrap() {
                    Message::Reply { newest, stored } => {
                        let taken = half_take_reply(&mut self.blocks[m], n, *member, 3, &newest, &stored).unwrap();
                        assert_eq!(taken.pairs, most_pairs(n));
                        self.to_host[m] = Some(through_bytes(Message::Commit(taken.commit.unwrap()), n));
                        None
                    }
                    Message::Outcome(outcome) => {
                        let answer = half_take_outcome(&mut self.blocks[m], n, *member, outcome);
                        assert_eq!(answer.number, 0);
                        answer.returned
                    }
                    _ => panic!("not for a member"),
                }
            }
        }
    }
}

/// What the accepted operations make of the slots, from what the board shows.
struct Serial {
    sheets: Vec<Sheet>,              // of the last write to each slot
    must_return: Vec<Option<Sheet>>, // of each member's accepted read
    rows: Matrix,                    // counts of the accepted operations
    newest: Vec<Record>,             // the last accepted record of each slot
    by_owner: Vec<Record>,           // and the last by its owner
}

impl Serial {
    fn new(n: u32) -> Serial {
        let opening: Vec<Record> = (1..=n).map(|slot| opening_record(n, slot)).collect();
        let (sheets, must_return) = (vec![[0; 8]; n as usize], vec![None; n as usize]);
        Serial { sheets, must_return, rows: zero_matrix(n), newest: opening.clone(), by_owner: opening }
    }

    /// A member's operation is accepted, in phase 3 of its block.
    fn accept(&mut self, member: u32, block: &Block) {
        let (m, r) = (member as usize - 1, block.slot as usize - 1);
        if block.op_type == WRITE {
            self.sheets[r] = block.pending_sheet;
        } else {
            self.must_return[m] = Some(self.sheets[r]);
        }
        // A read carries the last own sheet.
        assert_eq!(block.first.sheet, self.sheets[m]);
        self.rows[r][m] = block.own_counts[r];
        self.newest[r] = block.first.clone();
        if member == block.slot {
            self.by_owner[r] = block.first.clone();
        }
    }

    fn check_host(&self, table: &[u32]) {
        for s in 0..self.sheets.len() {
            let entry = entry_of(table, s as u32 + 1);
            assert_eq!((&entry.stored, &entry.newest), (&self.by_owner[s], &self.newest[s]));
            assert_eq!(entry.stored.sheet, self.sheets[s]);
            assert_eq!(entry.newest.matrix[s], self.rows[s]);
        }
    }
}

/// One run: the board, the book, the halves apart, and the serial history.
struct Run<'a> {
    kind: Kind,
    n: u32,
    table: Vec<u32>,
    book: Book,
    apart: Apart,
    serial: Serial,
    tally: &'a mut Tally,
}

impl Run<'_> {
    /// From the kind's own opening.
    fn new(kind: Kind, n: u32, tally: &mut Tally) -> Run<'_> {
        let mut table = vec![7; table_words(n)];
        assert_eq!(kind.open(&mut table, n), 0);
        let (book, apart, serial) = (Book::new(n, kind.limit), Apart::new(kind, n), Serial::new(n));
        Run { kind, n, table, book, apart, serial, tally }
    }

    /// The number, which all agree on.
    fn call(&mut self, call: &Call) -> u32 {
        let before = self.table.clone();
        let answer = call_board(self.kind, &mut self.table, call);
        let (number, returned) = self.book.call(call);
        self.tally.calls += 1;
        self.tally.answers[number as usize] += 1;
        self.tally.spent += (number == 9 && self.kind.limit > 0) as u64;
        assert_eq!((answer.number, answer.returned), (number, returned), "{:?}", call);
        for member in 1..=self.n {
            assert_eq!(phase_of(&self.table, member), self.book.phase(member), "{:?}", call);
            assert_ne!(phase_of(&self.table, member), HALTED);
        }
        assert_eq!(check_table(&self.table), 0);
        if number != 0 {
            assert_eq!(self.table, before);
            self.refused_apart(call, number);
            return number;
        }
        assert_eq!(self.apart.follow(call), returned);
        assert_eq!(self.apart.entries[..], self.table[entries_start(self.n)..]);
        match call {
            Call::Crash { member } => {
                self.tally.crashes += 1;
                let mut only_mark = before;
                only_mark[block_start(self.n, *member) + 1] = 1;
                assert_eq!(self.table, only_mark);
            }
            Call::Begin { member, .. } => self.same_block_apart(*member),
            Call::Deliver { member } => self.delivered(*member, &before, returned),
        }
        number
    }

    /// A member's own half refuses a begin by the same number.
    fn refused_apart(&mut self, call: &Call, number: u32) {
        if let Call::Begin { member, slot, op_type, sheet } = call {
            if in_range(*member, self.n) {
                let block = &mut self.apart.blocks[*member as usize - 1];
                assert_eq!(self.kind.half_begin(block, self.n, *member, *slot, *op_type, sheet), Err(number));
            }
        }
    }

    fn same_block_apart(&self, member: u32) {
        let apart = block_from_words(&self.apart.blocks[member as usize - 1], self.n);
        assert_eq!(apart, block_of(&self.table, member));
    }

    fn delivered(&mut self, member: u32, before: &[u32], returned: Option<Sheet>) {
        let old = block_of(before, member);
        match phase_of(&self.table, member) {
            COMMIT_SENT => self.same_block_apart(member),
            ACCEPTED_SENT => {
                self.serial.accept(member, &old);
                self.tally.accepted += 1;
                self.tally.own_reads += (member == old.slot && old.op_type == READ) as u64;
                let (slot, op_type, sheet) = (old.slot, old.op_type, self.serial.sheets[old.slot as usize - 1]);
                assert_eq!(self.book.history.last(), Some(&Line { member, slot, op_type, sheet }));
            }
            ABORTED_SENT => {
                self.tally.aborted += 1;
                assert_eq!(self.table[entries_start(self.n)..], before[entries_start(self.n)..]);
            }
            IDLE => {
                self.same_block_apart(member);
                assert_eq!(returned, self.serial.must_return[member as usize - 1].take());
                self.tally.returned += returned.is_some() as u64;
            }
            _ => {}
        }
        self.serial.check_host(&self.table);
    }

    /// The history replayed from the start.
    fn replay(&self) {
        let mut sheets = vec![[0u32; 8]; self.n as usize];
        for line in &self.book.history {
            let s = line.slot as usize - 1;
            if line.op_type == WRITE {
                sheets[s] = line.sheet;
            }
            assert_eq!(sheets[s], line.sheet);
        }
        assert_eq!(sheets, self.book.sheets);
    }
}

fn random_run(rng: &mut Rng, kind: Kind, n: u32, style: &Style, tally: &mut Tally) {
    let mut run = Run::new(kind, n, tally);
    for _ in 0..style.steps {
        let call = random_call(rng, n, style, &run.table);
        run.call(&call);
    }
    run.replay();
}

/// Auction boards, and boards with a limit that is soon reached: it is left open.
fn other_kinds(n: u32) -> Vec<Kind> {
    let mut kinds: Vec<Kind> = (0..=3).map(|limit| Kind { most: n, limit }).collect();
    kinds.push(AUCTION);
    kinds.retain(|kind| n <= kind.most);
    kinds
}

fn random_runs(seed: u64, runs: u32) {
    for n in 1..=12 {
        let mut tally = Tally::default();
        let mut rng = Rng::new(seed.wrapping_mul(1000).wrapping_add(n as u64));
        for run in 0..runs {
            let style = Style {
                // The long ones go to all slots, so that own reads come up.
                slots: if run % 10 == 0 { n } else { *rng.pick(&[1, n, n, n / 2 + 1]) },
                crash_once_in: *rng.pick(&[60, 300, 1_000_000]),
                bad_once_in: *rng.pick(&[10, 100]),
                steps: if run % 10 == 0 { 3000 } else { 400 },
            };
            random_run(&mut rng, COMMON, n, &style, &mut tally);
            for kind in other_kinds(n) {
                random_run(&mut rng, kind, n, &Style { steps: 200, ..style }, &mut tally);
            }
        }
        println!(
            "ok runs n {}: calls {} accepted {} (own reads {}) aborted {} crashes {} returned {} by answer {:?}",
            n, tally.calls, tally.accepted, tally.own_reads, tally.aborted, tally.crashes, tally.returned, tally.answers
        );
        assert!(tally.accepted > 0 && tally.crashes > 0 && tally.returned > 0 && tally.own_reads > 0);
        assert!(n == 1 || tally.aborted > 0);
        assert!(tally.spent > 0);
    }
}

// ---------------------------------------------------------------- lent tables of any words

/// A refusal changes nothing; after 0 the table is still good.
fn strange_tables(rng: &mut Rng) {
    let mut done = 0;
    let mut refused = 0;
    let mut halts = [0u64; 28];
    for _ in 0..40_000 {
        let n = rng.between(1, 5);
        let style = Style { slots: n, crash_once_in: 100, bad_once_in: 50, steps: 0 };
        let mut table = new_table(n);
        let kind = *rng.pick(&KINDS);
        for _ in 0..rng.between(0, 40) {
            let call = random_call(rng, n, &style, &table);
            call_board(COMMON, &mut table, &call);
        }
        for _ in 0..rng.between(1, 6) {
            let place = rng.below(table.len() as u64) as usize;
            table[place] = *rng.pick(&[0, 1, 2, n, n + 1, 7, 22, 9_998, 9_999, u32::MAX - 1, u32::MAX]);
        }
        for _ in 0..4 {
            let before = table.clone();
            let call = if n_is_good(table[0]) && check_table(&table) == 0 {
                random_call(rng, table[0], &style, &table)
            } else {
                Call::Deliver { member: 1 }
            };
            let answer = call_board(kind, &mut table, &call);
            if answer.number != 0 {
                assert_eq!(table, before);
                refused += 1;
                continue;
            }
            assert_eq!(check_table(&table), 0);
            done += 1;
            if let Call::Deliver { member } = call {
                if phase_of(&table, member) == HALTED {
                    halts[block_of(&table, member).halt_number as usize] += 1;
                }
            }
        }
    }
    println!("ok strange tables: done {} refused {} halts 22 to 27 {:?}", done, refused, &halts[22..]);
}
