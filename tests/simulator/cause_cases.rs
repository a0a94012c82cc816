// What is asked of the tool that finds the step that cost an operation.

use crate::asked::{watch, MOST_BYTES};
use crate::asked_cases::{
    asked, board_scripts, list, numbers, passing_over_bad_lines, random_runs, rounds, script, small_cases, Asked, OVERTAKEN,
};
use crate::cause::CAUSE;
use crate::rng::Rng;
use crate::script_cases::{random_script, Manner, USUAL};

pub fn cases(rng: &mut Rng, runs: u32) -> Vec<Asked> {
    let mut cases = small_cases(rng);
    cases.extend(BY_HAND.map(|(lines, _)| asked(rng, "by_hand", script(lines), usize::MAX)));
    cases.extend(every_board(rng));
    cases.extend(numbers_of_steps());
    cases.extend(long_lines());
    cases.extend(many_operations());
    cases.extend(most_steps(rng));
    cases.extend(small_runs(4));
    cases.extend(board_scripts(rng));
    cases.extend(random_runs(rng, runs, manner));
    cases
}

// ---------------------------------------------------------------- fixed cases

/// 1's write, overtaken by two: no step does it by itself.
pub const TWICE: &str = "members 3, write 1 7, deliver 1, read 2 1, deliver 2, read 3 1, deliver 3, deliver 1, deliver 1";

/// What is printed of 1's first operation, worked out by hand.
pub const BY_HAND: [(&str, &str); 22] = [
    // Without 2's begin at 3 nothing is submitted at 4.
    (OVERTAKEN, "3"),
    // Two overtake it, or three; then two again, and one between them on another slot.
    (TWICE, "none"),
    ("members 4, write 1 7, deliver 1, read 2 1, deliver 2, read 3 1, deliver 3, read 4 1, deliver 4, deliver 1, deliver 1", "none"),
    ("members 4, write 1 7, deliver 1, read 2 1, deliver 2, write 3 5, deliver 3, read 4 1, deliver 4, deliver 1, deliver 1", "none"),
    // The begin at 4 takes the place of that at 3, so that it is the submit at 5; where a deliver takes its place too, there is none.
    ("members 2, write 1 7, deliver 1, read 2 1, read 2 1, deliver 2, deliver 1, deliver 1", "5"),
    ("members 2, write 1 7, deliver 1, read 2 1, read 2 1, deliver 2, deliver 2, deliver 1, deliver 1", "none"),
    // What takes its place is on another slot.
    ("members 2, write 1 7, deliver 1, read 2 1, write 2 5, deliver 2, deliver 1, deliver 1", "3"),
    // Begun before the operation; crashed before its submit; on the largest board.
    ("members 2, read 2 1, write 1 7, deliver 1, deliver 2, deliver 1, deliver 1", "1"),
    ("members 2, write 1 7, deliver 1, read 2 1, crash 2, deliver 2, deliver 1, deliver 1", "3"),
    ("members 12, read 1 12, write 12 7, deliver 1, deliver 12, deliver 1, deliver 1", "2"),
    // Without 2 the first operation ends at 9, where the second has its submit; without 1 it has it still.
    ("members 2, read 2 1, deliver 2, deliver 2, deliver 2, deliver 2, write 1 7, deliver 1, read 2 1, deliver 2, deliver 1, deliver 1",
        "2"),
    // Without 2 the first operation's submit comes at 5, which is late enough to overtake; without 5 the second begin is refused.
    ("members 2, read 2 1, deliver 2, write 1 7, deliver 1, deliver 2, deliver 2, deliver 2, read 2 1, deliver 2, deliver 1, deliver 1",
        "5"),
    // Without 1 the begin at 3 counts, and its operation is under way when 2 reads.
    ("members 2, write 2 4, deliver 2, write 2 5, deliver 2, deliver 2, deliver 2, write 1 7, deliver 1, read 2 1, deliver 2, \
        deliver 1, deliver 1", "1"),
    // The operation two before: without 2 it ends at 7, and the begin at 8 counts.
    ("members 2, write 2 4, deliver 2, deliver 2, deliver 2, deliver 2, write 2 5, deliver 2, write 2 6, deliver 2, deliver 2, \
        deliver 2, write 1 7, deliver 1, read 2 1, deliver 2, deliver 1, deliver 1", "2"),
    // Submits at 9 and 15: without 2 the first begin is refused, then the write at 12 counts and the second is refused too.
    ("members 2, write 2 4, deliver 2, deliver 2, deliver 2, deliver 2, write 1 7, deliver 1, read 2 1, deliver 2, deliver 2, \
        deliver 2, write 2 5, deliver 2, read 2 1, deliver 2, deliver 1, deliver 1", "2"),
    // Submits at 4 and 9: without the first begin or submit there is the second, and the other way round.
    ("members 2, write 1 7, deliver 1, read 2 1, deliver 2, deliver 2, deliver 2, deliver 2, read 2 1, deliver 2, deliver 1, deliver 1",
        "none"),
    // Without 1's own deliver at 2 its submit comes later, and it is accepted: that is no step of another.
    ("members 2, write 1 7, deliver 1, read 2 1, deliver 2, deliver 1, deliver 1, deliver 1", "3"),
    ("members 3, write 1 7, deliver 1, read 2 1, deliver 2, read 3 1, deliver 3, deliver 1, deliver 1, deliver 1", "none"),
    // Refused steps, and members that are not there.
    ("members 2, deliver 0, crash 3, deliver 2, write 1 7, deliver 1, read 2 1, deliver 2, deliver 1, deliver 1", "6"),
    // 3's submit is taken before 1's own.
    ("members 3, read 3 1, deliver 3, write 1 7, deliver 1, read 2 1, deliver 2, deliver 1, deliver 1", "5"),
    // Accepted all along; without a verdict.
    ("members 2, write 1 7, deliver 1, deliver 1, deliver 1, read 2 1, deliver 2, deliver 1", "31"),
    ("members 2, write 1 7, deliver 1, read 2 1, deliver 2, deliver 1, crash 2", "31"),
];

/// From three on, the last but one is overtaken by the last and by the first, and the last by the first alone.
fn every_board(rng: &mut Rng) -> Vec<Asked> {
    let mut cases = Vec::new();
    for (n, below) in (2..=12).zip(1..) {
        let lines = "members N, read N M, write M 7, deliver M, deliver N, read 1 M, deliver 1, deliver M, deliver N, deliver M, deliver N";
        let lines = lines.replace('N', &n.to_string()).replace('M', &below.to_string());
        cases.push(asked(rng, &format!("board_{}", n), script(&lines), 3));
    }
    cases
}

/// The first line and so many steps: the given ones, and before or behind them what fills up.
fn filled(lines: &str, steps: usize, given_first: bool, filling: &str) -> Vec<u8> {
    let (first, given) = lines.split_once(", ").unwrap();
    let rest = vec![filling; steps - given.split(", ").count()].join(", ");
    let parts = if given_first { [first, given, &rest] } else { [first, &rest, given] };
    script(&parts.join(", "))
}

/// About 256 steps, and far above: good scripts, and on each other ground too.
fn numbers_of_steps() -> Vec<Asked> {
    let mut cases = Vec::new();
    for steps in [255, 256, 257, 258, 512, 513, 6_000] {
        let mut scripts = vec![script(&vec!["x"; steps + 1].join(", ")), script(&vec![""; steps + 1].join(", "))];
        for lines in [OVERTAKEN, TWICE, &OVERTAKEN.replace("members 2", "members 13"), &OVERTAKEN.replace("members 2", "members 02")] {
            scripts.extend([filled(lines, steps, true, "deliver 0"), filled(lines, steps, false, "crash 2")]);
        }
        scripts.extend(["", "bid 1", "members 2"].map(|bad| filled(OVERTAKEN, steps, true, bad)));
        for script in scripts {
            let bare = script[..script.len() - 1].to_vec();
            let one_more = [&script[..], b"\n"].concat();
            for script in [script, bare, one_more] {
                let lists = vec![numbers(1, 1), numbers(1, 2), list(&[b"1"])];
                cases.push(Asked { name: format!("steps_{}", steps), script, lists });
            }
        }
    }
    cases
}

/// As many bytes as a script may have and one more, in few lines and in many:
/// a line of another form is as long as is needed.
fn long_lines() -> Vec<Asked> {
    let mut cases = Vec::new();
    for bytes in [MOST_BYTES, MOST_BYTES + 1] {
        for steps in [6, 255, 256, 300] {
            let mut script = filled(OVERTAKEN, steps, true, "deliver 0");
            let length = bytes - script.len();
            script.extend(vec![b'1'; length]);
            cases.push(Asked { name: format!("bytes_{}", bytes), script, lists: vec![numbers(1, 1), list(&[b"1"])] });
        }
    }
    cases
}

/// As many as 256 steps have room for, the last verdict at step 256; and one step more before all of them.
fn many_operations() -> Vec<Asked> {
    let (first, round) = OVERTAKEN.split_once(", ").unwrap();
    let script = [rounds(25), script(round)].concat();
    let shifted = [&script[..first.len() + 1], b"deliver 0\n", &script[first.len() + 1..]].concat();
    let ordinals = [1, 2, 3, 9, 10, 11, 25, 26, 27];
    let lists = ordinals.iter().flat_map(|ordinal| [numbers(1, *ordinal), numbers(2, *ordinal)]).collect::<Vec<_>>();
    let case = |script| Asked { name: "many_operations".to_string(), script, lists: lists.clone() };
    vec![case(script), case(shifted)]
}

/// Every way in which so many steps of 2, and crashes of it, fall among those of
/// 1's write, where that is aborted.
pub fn small_runs(most: usize) -> Vec<Asked> {
    let mut scripts = vec![("members 2".to_string(), 4, most)];
    let mut cases = Vec::new();
    while let Some((lines, own, others)) = scripts.pop() {
        if own > 0 {
            let next = if own == 4 { "write 1 7" } else { "deliver 1" };
            scripts.push((format!("{}, {}", lines, next), own - 1, others));
        }
        if others > 0 && own > 0 {
            let next = ["read 2 1", "write 2 5", "deliver 2", "crash 2"];
            scripts.extend(next.map(|step| (format!("{}, {}", lines, step), own, others - 1)));
        }
        if own == 0 {
            cases.extend(first_aborted(&script(&lines)));
        }
    }
    cases
}

fn first_aborted(script: &[u8]) -> Option<Asked> {
    let (n, steps) = passing_over_bad_lines(script)?;
    watch(n, &steps).aborted(1, 1).ok()?;
    Some(Asked { name: "small".to_string(), script: script.to_vec(), lists: vec![numbers(1, 1)] })
}

// ---------------------------------------------------------------- at random

/// Busy to the end, in as many steps as a script may have, and one more.
fn most_steps(rng: &mut Rng) -> Vec<Asked> {
    let mut cases = Vec::new();
    for n in [2, 3, 4, 6, 8, 12] {
        for steps in [CAUSE.most_steps as u32, CAUSE.most_steps as u32 + 1] {
            let manner = Manner { steps, slots: n, crash_once_in: 3_000, astray_once_in: 10, ..USUAL };
            let script = random_script(rng, n, &manner);
            cases.push(asked(rng, &format!("most_{}", n), script, 2));
        }
    }
    cases
}

/// Short, with clashes on few slots and many steps out of turn; in a few runs bad lines.
fn manner(rng: &mut Rng) -> Manner {
    Manner {
        steps: *rng.pick(&[8, 12, 20, 30, 40, 60]),
        busy: *rng.pick(&[2, 3, 4, 12]),
        slots: *rng.pick(&[1, 1, 2, 3]),
        crash_once_in: *rng.pick(&[12, 60, 1_000]),
        bad_once_in: if rng.once_in(8) { 40 } else { u64::MAX },
        astray_once_in: *rng.pick(&[3, 8, 30]),
    }
}
