// The step that cost an operation: what request (m) of document 02 says, worked
// out by hand. Each case is asked a second way too, in the book. Then every
// small run and runs at random are asked, both ways and a third, and the
// request's sentences are tried one by one.

use crate::asked::{watch, Ground, Operation, Run, Seen};
use crate::asked_cases::{list, numbers, rounds, script, OVERTAKEN};
use crate::board::COMMON;
use crate::cause::{without, Cause, CAUSE};
use crate::cause_cases::{small_runs, BY_HAND, TWICE};
use crate::reference::Book;
use crate::rng::Rng;
use crate::script::Step;
use crate::script_cases::{filling, Manner, USUAL};
use crate::two_ways::{call_of, TwoWays};

pub fn all(rng: &mut Rng) {
    for (lines, out) in BY_HAND {
        TOOL.expect(lines, &[(1, 1, out)]);
    }
    left_out();
    other_operations();
    crashes();
    ordinals();
    TOOL.refusals("3");
    numbers_of_steps();
    rubbish();
    orders_with_35();
    in_every_small_run();
    at_random(rng);
    println!("ok steps that cost an operation");
}

// ---------------------------------------------------------------- asking

const TOOL: TwoWays<Cause> = TwoWays { tool: CAUSE, again: by_book };

/// The second way: the definition's words, with the book as the host.
fn by_book(run: &Run, member: u32, ordinal: u32) -> Option<Cause> {
    if verdict_in_book(run, member, ordinal, None) != Some(5) {
        return None;
    }
    let others = (1..=run.steps.len()).rev().filter(|at| run.steps[at - 1].member() != member);
    let first = others.filter(|at| verdict_in_book(run, member, ordinal, Some(*at)) == Some(4)).last();
    Some(first.map_or(Cause::None, |at| Cause::Step(at as u32)))
}

/// The operation's phase at its verdict, 4 or 5, where it reaches one.
fn verdict_in_book(run: &Run, member: u32, ordinal: u32, left_out: Option<usize>) -> Option<u32> {
    if member == 0 || member > run.n {
        return None;
    }
    let mut book = Book::new(run.n, COMMON.limit);
    for (place, step) in run.steps.iter().enumerate() {
        if left_out != Some(place + 1) {
            book.call(&call_of(step));
        }
        let begins: u32 = book.members[member as usize - 1].begins.iter().sum();
        if begins == ordinal && book.phase(member) >= 4 {
            return Some(book.phase(member));
        }
    }
    None
}

/// The third way: what a member submits, its own lines tell alone. So of an
/// aborted operation nothing is run again but the lines of one other member.
fn by_lines_alone(run: &Run, operation: &Operation) -> Cause {
    let others = (1..=run.n).filter(|other| *other != operation.member);
    let overtaken = |left_out: u32| others.clone().any(|other| submits_between(run, operation, other, left_out));
    let of_another = |at: &u32| run.steps[*at as usize - 1].member() != operation.member;
    let first = (1..=run.steps.len() as u32).filter(of_another).find(|at| !overtaken(*at));
    first.map_or(Cause::None, Cause::Step)
}

/// Does this member submit on the operation's slot between its submit and its commit?
fn submits_between(run: &Run, operation: &Operation, other: u32, left_out: u32) -> bool {
    let (mut phase, mut running, mut crashed) = (0, 0, false);
    for (at, step) in (1..).zip(&run.steps) {
        if step.member() != other || at == left_out {
            continue;
        }
        match *step {
            Step::Crash { .. } => crashed = true,
            Step::Deliver { .. } if phase == 0 || (crashed && phase % 2 == 0) => {}
            Step::Deliver { .. } => {
                if phase == 1 && running == operation.slot && Some(at) > operation.submit && Some(at) < operation.commit {
                    return true;
                }
                phase = (phase + 1) % 5;
            }
            Step::Write { .. } | Step::Read { .. } => {
                let slot = slot_of(step);
                if phase == 0 && !crashed && slot >= 1 && slot <= run.n {
                    (phase, running) = (1, slot);
                }
            }
        }
    }
    false
}

/// Of a begin.
fn slot_of(step: &Step) -> u32 {
    match *step {
        Step::Read { slot, .. } => slot,
        _ => step.member(),
    }
}

// ---------------------------------------------------------------- by hand

fn left_out() {
    let steps = [Step::Deliver { member: 1 }, Step::Crash { member: 2 }, Step::Deliver { member: 3 }];
    for (left_out, rest) in [(1, [1, 2]), (2, [0, 2]), (3, [0, 1])] {
        assert_eq!(without(&steps, left_out), rest.map(|place: usize| steps[place].clone()));
    }
}

/// All operations of a script at once. 2's first comes and goes at another slot.
fn other_operations() {
    // 1's submit at 7, 2's at 9, 3's at 11; commits of 1 at 13, of 2 at 15, of 3 at 17.
    let lines = "members 3, write 2 5, deliver 2, deliver 2, deliver 2, deliver 2, write 1 7, deliver 1, read 2 1, deliver 2, \
        read 3 1, deliver 3, deliver 1, deliver 1, deliver 2, deliver 2, deliver 3, deliver 3";
    TOOL.expect(lines, &[(1, 1, "none"), (2, 1, "31"), (2, 2, "10"), (3, 1, "31")]);
}

/// Left out, a crash lets more happen and takes nothing away: it is never the step.
fn crashes() {
    // Without the crash 2's first ends at 8 and its second overtakes still, by the submit at 10.
    let lines = "members 2, read 2 1, write 1 7, deliver 1, deliver 2, crash 2, deliver 2, deliver 2, deliver 2, read 2 1, deliver 2, \
        deliver 1, deliver 1";
    TOOL.expect(lines, &[(1, 1, "1")]);
    TOOL.expect(&lines.replace("crash 2, ", ""), &[(1, 1, "none")]);
    // 1's commit is still delivered, and its reply is not.
    let lines = OVERTAKEN.replace("deliver 1, deliver 1", "deliver 1, crash 1, deliver 1, deliver 1");
    TOOL.expect(&lines, &[(1, 1, "3")]);
    TOOL.expect(&OVERTAKEN.replace("deliver 1, deliver 1", "crash 1, deliver 1, deliver 1"), &[(1, 1, "31")]);
}

/// In rounds of ten steps, 2's submit of the round before is left out: then its next begin is refused.
fn ordinals() {
    let (_, round) = OVERTAKEN.split_once(", ").unwrap();
    let text = [rounds(25), script(round)].concat();
    for (ordinal, out) in [(1, "3\n"), (2, "4\n"), (3, "14\n"), (10, "84\n"), (25, "234\n"), (26, "244\n"), (27, "31\n")] {
        assert_eq!(TOOL.ask(&numbers(1, ordinal), &text), out);
    }
}

// ---------------------------------------------------------------- 35

/// The lines, and behind them so many that every board refuses.
fn and_more(lines: &str, more: usize) -> Vec<u8> {
    [script(lines), b"deliver 0\n".repeat(more)].concat()
}

/// OVERTAKEN has 6 steps, TWICE has 8.
fn numbers_of_steps() {
    for (more, found) in [(248, true), (249, true), (250, true), (251, false), (252, false), (506, false), (507, false), (6_000, false)] {
        let (first, none) = if found { ("3\n", "none\n") } else { ("35\n", "35\n") };
        for (text, out) in [(and_more(OVERTAKEN, more), first), (and_more(TWICE, more - 2), none)] {
            assert_eq!(TOOL.first_of_one(&text), out);
            assert_eq!(TOOL.first_of_one(&text[..text.len() - 1]), out, "the last line feed left out");
        }
    }
    // The verdict is the last step there may be; then it is the one too many.
    let (first, steps) = OVERTAKEN.split_once(", ").unwrap();
    for (before, out) in [(250, "253\n"), (251, "35\n")] {
        assert_eq!(TOOL.first_of_one(&[and_more(first, before), script(steps)].concat()), out);
    }
}

/// Lines are counted and not looked at, the first neither.
fn rubbish() {
    for line in ["x\n", "\n", "members 2\n", "\u{e9}\r\n"] {
        assert_eq!(TOOL.first_of_one(line.repeat(257).as_bytes()), "17\n");
        assert_eq!(TOOL.first_of_one(line.repeat(258).as_bytes()), "35\n");
        let bare = line.repeat(258);
        assert_eq!(TOOL.first_of_one(bare[..bare.len() - 1].as_bytes()), if line == "\n" { "17\n" } else { "35\n" });
        assert_eq!(TOOL.first_of_one(format!("{}x", line.repeat(257)).as_bytes()), "35\n");
    }
    // An empty line behind the last counts.
    assert_eq!(TOOL.first_of_one(&[and_more(OVERTAKEN, 250), script("")].concat()), "35\n");
    assert_eq!(TOOL.first_of_one(&[and_more(OVERTAKEN, 249), script("")].concat()), "17\n");
}

/// After 17 for the arguments and the bytes, before all else.
fn orders_with_35() {
    let one_argument = list(&[b"1"]);
    assert_eq!(TOOL.ask(&one_argument, &and_more(OVERTAKEN, 251)), "17\n");
    for (bytes, out) in [(65_466, "35\n"), (65_467, "17\n"), (70_000, "17\n")] {
        assert_eq!(TOOL.first_of_one(&[script(OVERTAKEN), filling(bytes)].concat()), out);
    }
    for (members, out) in [("members 13", "1\n"), ("members 0", "1\n"), ("members 02", "17\n"), ("", "17\n")] {
        let lines = OVERTAKEN.replace("members 2", members);
        assert_eq!(TOOL.first_of_one(&and_more(&lines, 250)), out);
        assert_eq!(TOOL.first_of_one(&and_more(&lines, 251)), "35\n");
    }
    for (member, ordinal) in [(1, 2), (0, 1), (3, 1)] {
        assert_eq!(TOOL.ask(&numbers(member, ordinal), &and_more(OVERTAKEN, 250)), "31\n");
        assert_eq!(TOOL.ask(&numbers(member, ordinal), &and_more(OVERTAKEN, 251)), "35\n");
    }
    assert_eq!(TOOL.first_of_one(&and_more(&format!("{}, bid 1", OVERTAKEN), 249)), "17\n");
    assert_eq!(TOOL.first_of_one(&and_more(&format!("{}, bid 1", OVERTAKEN), 250)), "35\n");
}

// ---------------------------------------------------------------- the request's sentences

/// Of an aborted operation and what is found of it.
fn sentences(run: &Run, member: u32, ordinal: u32, cause: Cause) {
    let others = (1..=run.steps.len() as u32).filter(|at| run.steps[*at as usize - 1].member() != member);
    for left_out in others {
        let anew = watch(run.n, &without(&run.steps, left_out));
        names_the_same(run, &anew, member, left_out);
        let accepted = anew.named(member, ordinal).is_some_and(|operation| operation.commit.is_some() && !operation.aborted);
        let may_be = match cause {
            Cause::Step(step) if left_out > step => continue,
            Cause::Step(step) => left_out == step,
            Cause::None => false,
        };
        assert_eq!(accepted, may_be, "{} {} without {} in {:?}", member, ordinal, left_out, run.steps);
    }
    let operation = run.seen.named(member, ordinal).unwrap();
    assert_eq!(cause, by_lines_alone(run, operation), "{} {} in {:?}", member, ordinal, run.steps);
    if let Cause::Step(step) = cause {
        costs(run, operation, step);
    }
}

/// Leaving out another's step moves neither the member's answers nor the lines
/// of its operations' two messages.
fn names_the_same(run: &Run, anew: &Seen, member: u32, left_out: u32) {
    let before = |at: u32| if at < left_out { at } else { at + 1 };
    let mut back = anew.operations.clone();
    for operation in &mut back {
        operation.begin = before(operation.begin);
        operation.submit = operation.submit.map(before);
        operation.commit = operation.commit.map(before);
        operation.aborted = false;
    }
    let own = |operations: &[Operation]| -> Vec<Operation> {
        operations.iter().filter(|operation| operation.member == member).cloned().collect()
    };
    let known: Vec<Operation> = own(&run.seen.operations).into_iter().map(|operation| Operation { aborted: false, ..operation }).collect();
    assert_eq!(own(&back), known, "without {} in {:?}", left_out, run.steps);
    let mut answers = anew.answers.clone();
    answers.insert(left_out as usize - 1, 0);
    for (place, step) in run.steps.iter().enumerate().filter(|(_, step)| step.member() == member) {
        assert_eq!(answers[place], run.seen.answers[place], "{:?} without {} in {:?}", step, left_out, run.steps);
    }
}

/// What costs an operation was answered 0, was no crash, came before the
/// verdict, and is of the one member whose submits came in between.
fn costs(run: &Run, operation: &Operation, step: u32) {
    let left_out = &run.steps[step as usize - 1];
    assert_eq!(run.seen.answers[step as usize - 1], 0, "{} in {:?}", step, run.steps);
    assert!(!matches!(left_out, Step::Crash { .. }), "{} in {:?}", step, run.steps);
    assert!(Some(step) < operation.commit && run.seen.between(operation).iter().all(|submit| submit.member == left_out.member()));
}

/// Up to five steps of another among those of an operation.
fn in_every_small_run() {
    let (mut found, mut none) = (0, 0);
    for asked in small_runs(5) {
        let run = CAUSE.run(&asked.script).expect("it has no bad line");
        let cause = TOOL.find(&run, 1, 1).expect("it is aborted");
        sentences(&run, 1, 1, cause);
        found += matches!(cause, Cause::Step(_)) as u32;
        none += (cause == Cause::None) as u32;
    }
    assert!(found > 7_000 && none > 500, "a step found {}, none {}", found, none);
}

fn at_random(rng: &mut Rng) {
    let (mut found, mut none, mut accepted, mut no_verdict) = (0, 0, 0, 0);
    for turn in 0..300 {
        let manner = Manner { steps: 40, busy: 3, crash_once_in: [15, 200][turn % 2], astray_once_in: [3, 10, 30][turn % 3], ..USUAL };
        TOOL.ask_all(rng, [1, 2, 3, 4, 12][turn % 5], &manner, |run, member, ordinal, answered| match answered {
            Ok(cause) => {
                sentences(run, member, ordinal, cause);
                found += matches!(cause, Cause::Step(_)) as u32;
                none += (cause == Cause::None) as u32;
            }
            Err(ground) => {
                accepted += (ground == Ground::Accepted) as u32;
                no_verdict += (ground == Ground::NoVerdict) as u32;
            }
        });
    }
    // About half of what each of forty seeds gave.
    let counts = [found, none, accepted, no_verdict];
    assert!(found > 120 && none > 18 && accepted > 540 && no_verdict > 220, "found, none, accepted, without a verdict {:?}", counts);
}
