// Who overtook an operation: what request (e) of document 02 says, worked out
// by hand. Each case is asked a second way too, in the book; then runs at
// random are asked both ways.

use crate::asked::{Ground, Run, Submit};
use crate::asked_cases::{numbers, rounds, script, OVERTAKEN};
use crate::board::COMMON;
use crate::overtaker::OVERTAKER;
use crate::reference::{Book, Call};
use crate::rng::Rng;
use crate::script_cases::{filling, Manner, USUAL};
use crate::two_ways::{call_of, TwoWays};

pub fn all(rng: &mut Rng) {
    crossing();
    first_of_several();
    outside_the_two_messages();
    other_slots();
    own_reads();
    ordinals();
    before_the_verdict();
    crashes();
    refused_steps();
    largest_board();
    TOOL.refusals("2 4");
    bytes();
    at_random(rng);
    println!("ok overtaken operations");
}

// ---------------------------------------------------------------- asking

const TOOL: TwoWays<Submit> = TwoWays { tool: OVERTAKER, again: by_book };

/// The second way: the book is fed the steps and the one operation is followed
/// in it. Of the others nothing is kept but the first submit that counts.
fn by_book(run: &Run, member: u32, ordinal: u32) -> Option<Submit> {
    if member == 0 || member > run.n {
        return None;
    }
    let mut book = Book::new(run.n, COMMON.limit);
    let mut begins = 0;
    let mut overtaker = None;
    for (before, step) in run.steps.iter().enumerate() {
        let call = call_of(step);
        if book.call(&call).0 != 0 {
            continue;
        }
        match call {
            Call::Begin { member: by, .. } => begins += (by == member) as u32,
            Call::Deliver { member: by } if begins == ordinal && by == member => match book.phase(member) {
                4 => return None,
                5 => return overtaker,
                _ => {}
            },
            Call::Deliver { member: by } if begins == ordinal => {
                let under_way = book.phase(member) == 2 || book.phase(member) == 3;
                let slot_of = |m: u32| book.members[m as usize - 1].running.map(|operation| operation.slot);
                if under_way && book.phase(by) == 2 && slot_of(by) == slot_of(member) {
                    overtaker = overtaker.or(slot_of(by).map(|slot| Submit { member: by, step: before as u32 + 1, slot }));
                }
            }
            _ => {}
        }
    }
    None
}

fn expect(lines: &str, expected: &[(u32, u32, &str)]) {
    TOOL.expect(lines, expected);
}

// ---------------------------------------------------------------- who is named

/// The example: the second write crosses the first read, whose submit the host
/// takes at 9, between 7 and 12.
fn crossing() {
    let lines = "members 2, write 1 20, deliver 1, deliver 1, deliver 1, deliver 1, \
        write 1 21, deliver 1, read 2 1, deliver 2, deliver 1, deliver 2, deliver 1, deliver 2, deliver 1, deliver 2, \
        write 1 21, deliver 1, deliver 1, deliver 1, deliver 1, \
        read 2 1, deliver 2, deliver 2, deliver 2, deliver 2";
    expect(lines, &[(1, 1, "31"), (1, 2, "2 9"), (1, 3, "31"), (1, 4, "31")]);
    expect(lines, &[(2, 1, "31"), (2, 2, "31"), (2, 3, "31")]);
}

/// Not the last, though that one has the host's mark, nor the one of the lowest member.
fn first_of_several() {
    // Submits at 4, 5 and 6, and 1's commit at 8. Then 3's at 10, overtaken by 2's; 2's own is last.
    let lines = "members 3, read 1 3, read 2 3, write 3 5, deliver 1, deliver 3, deliver 2, deliver 1, deliver 1, \
        deliver 3, deliver 3, deliver 2, deliver 2";
    expect(lines, &[(1, 1, "3 5"), (3, 1, "2 6"), (2, 1, "31")]);
    // One member, twice: its first operation comes and goes in between, and is accepted.
    let lines = "members 2, write 1 7, deliver 1, read 2 1, deliver 2, deliver 2, deliver 2, deliver 2, \
        read 2 1, deliver 2, deliver 1, deliver 1";
    expect(lines, &[(1, 1, "2 4"), (2, 1, "31"), (2, 2, "31")]);
}

/// Before the own submit, also after the own begin; and from the verdict on.
fn outside_the_two_messages() {
    // 2's submit at 3, 1's at 4: it is 1 that overtakes.
    let lines = "members 2, write 1 7, read 2 1, deliver 2, deliver 1, deliver 1, deliver 1, deliver 2, deliver 2";
    expect(lines, &[(1, 1, "31"), (2, 1, "1 4")]);
    // 3's submit at 3 is before 1's own at 4, 2's at 6 is not.
    let lines = "members 3, write 1 7, read 3 1, deliver 3, deliver 1, read 2 1, deliver 2, deliver 1, deliver 1";
    expect(lines, &[(1, 1, "2 6")]);
    // A submit that was taken before 1 began.
    let lines = "members 2, read 2 1, deliver 2, write 1 7, deliver 1, deliver 1, deliver 1";
    expect(lines, &[(1, 1, "31")]);
    // 2's submit at 6 is behind the verdict at 4 and before its outcome at 7.
    let lines = "members 2, write 1 7, deliver 1, deliver 1, deliver 1, read 2 1, deliver 2, deliver 1";
    expect(lines, &[(1, 1, "31")]);
}

fn other_slots() {
    // 2's submit at 4 is on slot 3, that of 3 at 6 on slot 1.
    let lines = "members 3, write 1 7, deliver 1, read 2 3, deliver 2, read 3 1, deliver 3, deliver 1, deliver 1";
    expect(lines, &[(1, 1, "3 6")]);
    // On other slots alone: its owner's own, and one read from the other side.
    let lines = "members 2, read 1 2, deliver 1, read 2 1, deliver 2, deliver 1, deliver 1, deliver 2, deliver 2";
    expect(lines, &[(1, 1, "31"), (2, 1, "31")]);
}

fn own_reads() {
    let lines = "members 2, read 1 1, deliver 1, read 2 1, deliver 2, deliver 1, deliver 1";
    expect(lines, &[(1, 1, "2 4")]);
    let lines = "members 2, read 2 1, deliver 2, read 1 1, deliver 1, deliver 2, deliver 2";
    expect(lines, &[(2, 1, "1 4")]);
}

/// From 1, over all slots and both types; a begin that is refused has none.
fn ordinals() {
    // 1 reads slot 2, reads its own slot, and writes it at 11: submit at 12, 3's at 14, commit at 16.
    let lines = "members 3, read 1 2, deliver 1, deliver 1, deliver 1, deliver 1, \
        read 1 1, deliver 1, deliver 1, deliver 1, deliver 1, \
        write 1 7, deliver 1, read 3 1, deliver 3, deliver 1, deliver 1";
    expect(lines, &[(1, 1, "31"), (1, 2, "31"), (1, 3, "3 14"), (1, 4, "31"), (3, 1, "31")]);
    // Refused are 1's begins at 1 (no such slot), 3 (busy) and 10 (aborted and not told so), and 2's at 13 (busy).
    // 1's first, 4 to 8, has 2's submit at 6; 2's first, 6 to 16, has 1's at 14.
    let lines = "members 2, read 1 3, write 1 7, write 1 8, deliver 1, read 2 1, deliver 2, deliver 1, deliver 1, \
        deliver 0, write 1 9, deliver 1, write 1 9, write 2 5, deliver 1, deliver 2, deliver 2, deliver 2";
    expect(lines, &[(1, 1, "2 6"), (1, 2, "31"), (1, 3, "31"), (2, 1, "1 14"), (2, 2, "31")]);
    // 1's second, 14 to 21, has 2's submit at 19.
    let lines = format!("{}, read 2 1, deliver 2, deliver 1, deliver 1", lines);
    expect(&lines, &[(1, 1, "2 6"), (1, 2, "2 19"), (1, 3, "31"), (2, 1, "1 14"), (2, 2, "31")]);
    // Of many.
    for (ordinal, out) in [(1, "2 4\n"), (10, "2 94\n"), (256, "2 2554\n"), (257, "2 2564\n"), (300, "2 2994\n"), (301, "31\n")] {
        assert_eq!(TOOL.ask(&numbers(1, ordinal), &rounds(300)), out);
    }
}

// ---------------------------------------------------------------- what was aborted

/// Cut behind each step: aborted from the commit on, told or not.
fn before_the_verdict() {
    let lines: Vec<&str> = OVERTAKEN.split(", ").collect();
    for steps in 0..=5 {
        expect(&lines[..=steps].join(", "), &[(1, 1, "31")]);
    }
    expect(OVERTAKEN, &[(1, 1, "2 4")]);
    expect(&format!("{}, deliver 1", OVERTAKEN), &[(1, 1, "2 4")]);
    expect(&format!("{}, deliver 1, write 1 8", OVERTAKEN), &[(1, 1, "2 4"), (1, 2, "31")]);
}

/// A crashed member's submit or commit is still delivered, replies to it never.
fn crashes() {
    // 1 crashes: with its commit under way; untold of its abort; before the reply, so that no commit is sent; before its submit.
    let lines = "members 2, write 1 7, deliver 1, read 2 1, deliver 2, deliver 1, crash 1, deliver 1, deliver 1";
    expect(lines, &[(1, 1, "2 4")]);
    expect(&format!("{}, crash 1, deliver 1", OVERTAKEN), &[(1, 1, "2 4")]);
    let lines = "members 2, write 1 7, deliver 1, read 2 1, deliver 2, crash 1, deliver 1, deliver 1";
    expect(lines, &[(1, 1, "31")]);
    let lines = "members 2, write 1 7, crash 1, deliver 1, read 2 1, deliver 2, deliver 1, deliver 1";
    expect(lines, &[(1, 1, "31")]);
    // 2, who overtakes, has crashed: before its submit is taken at 5, and after it.
    let lines = "members 2, write 1 7, deliver 1, read 2 1, crash 2, deliver 2, deliver 1, deliver 1";
    expect(lines, &[(1, 1, "2 5")]);
    let lines = "members 2, write 1 7, deliver 1, read 2 1, deliver 2, crash 2, deliver 1, deliver 1";
    expect(lines, &[(1, 1, "2 4")]);
    // A crashed member's submit, taken before 1's own, aborts nobody.
    let lines = "members 2, read 2 1, crash 2, deliver 2, write 1 7, deliver 1, deliver 1, deliver 1";
    expect(lines, &[(1, 1, "31")]);
}

/// They have their numbers and change nothing: at 3, 5, 7 and 8 here.
fn refused_steps() {
    let lines = "members 2, write 1 7, deliver 1, deliver 0, read 2 1, write 2 9, deliver 2, crash 3, read 2 3, deliver 1, deliver 1";
    expect(lines, &[(1, 1, "2 6")]);
}

fn largest_board() {
    let lines = "members 12, read 12 11, write 11 7, deliver 12, deliver 11, deliver 12, deliver 12";
    expect(lines, &[(12, 1, "11 4"), (11, 1, "31")]);
}

// ---------------------------------------------------------------- bytes

/// The operation's lines and the first have 69 bytes. 65,466 bytes of filling
/// are 6,545 lines of 10 and one of 16: 2's submit is then at 6,546 + 4.
fn bytes() {
    let (first, steps) = OVERTAKEN.split_once(", ").unwrap();
    let behind = |bytes| [script(first), filling(bytes), script(steps)].concat();
    let before = |bytes| [script(OVERTAKEN), filling(bytes)].concat();
    assert_eq!((behind(65_466).len(), before(65_466).len()), (65_535, 65_535));
    assert_eq!(TOOL.first_of_one(&behind(65_466)), "2 6550\n");
    assert_eq!(TOOL.first_of_one(&before(65_466)), "2 4\n");
    for more in [65_467, 65_468, 70_000, 200_000] {
        assert_eq!(TOOL.first_of_one(&behind(more)), "17\n", "{} more", more);
        assert_eq!(TOOL.first_of_one(&before(more)), "17\n", "{} more", more);
    }
    // Without the last line feed: one byte less, which lets the longer one through.
    for (bytes, out) in [(65_466, "2 6550\n"), (65_467, "2 6550\n"), (65_468, "17\n")] {
        let text = behind(bytes);
        assert_eq!(TOOL.first_of_one(&text[..text.len() - 1]), out);
    }
}

// ---------------------------------------------------------------- at random

fn at_random(rng: &mut Rng) {
    let (mut named, mut accepted, mut no_verdict) = (0, 0, 0);
    for turn in 0..200 {
        let manner = Manner { crash_once_in: [20, 1_000][turn % 2], ..USUAL };
        TOOL.ask_all(rng, [1, 2, 3, 4, 12][turn % 5], &manner, |_, _, _, answered| {
            named += answered.is_ok() as u32;
            accepted += (answered == Err(Ground::Accepted)) as u32;
            no_verdict += (answered == Err(Ground::NoVerdict)) as u32;
        });
    }
    // About half of what each of forty seeds gave.
    assert!(named > 450 && accepted > 800 && no_verdict > 220, "named {}, accepted {}, without a verdict {}", named, accepted, no_verdict);
}
