// What every tool is asked that is asked about an operation: scripts, and for
// each the argument lists to ask with.

use crate::asked::{watch, Seen};
use crate::board::n_is_good;
use crate::fixed_scripts::fixed_scripts;
use crate::rng::Rng;
use crate::script::{parse, Line, Step};
use crate::script_cases::{any_script, filling, random_script, Manner, NUMBERS};
use std::collections::BTreeSet;

pub type Arguments = Vec<Vec<u8>>;

pub struct Asked {
    pub name: String,
    pub script: Vec<u8>,
    pub lists: Vec<Arguments>,
}

/// Argument lists, refusals and a clash, with crashes.
pub fn small_cases(rng: &mut Rng) -> Vec<Asked> {
    let mut cases = vec![argument_lists()];
    cases.extend(refused_scripts());
    cases.extend(bad_lines());
    cases.extend(crashes(rng));
    cases.extend(sizes());
    cases
}

/// The board program's scripts.
pub fn board_scripts(rng: &mut Rng) -> Vec<Asked> {
    fixed_scripts().into_iter().map(|(name, script)| asked(rng, &name, script, 2)).collect()
}

/// So many runs at random, each in a manner of its own, and some of any kind.
pub fn random_runs(rng: &mut Rng, runs: u32, manner: fn(&mut Rng) -> Manner) -> Vec<Asked> {
    let mut cases = Vec::new();
    for run in 0..runs {
        let manner = manner(rng);
        cases.push(random_run(rng, run % 12 + 1, &manner));
    }
    for _ in 0..runs / 8 {
        let (n, script) = any_script(rng);
        cases.push(asked(rng, &format!("any_{}", n), script, 2));
    }
    cases
}

// ---------------------------------------------------------------- lists

pub fn list(pieces: &[&[u8]]) -> Arguments {
    pieces.iter().map(|piece| piece.to_vec()).collect()
}

pub fn numbers(member: u32, ordinal: u32) -> Arguments {
    vec![member.to_string().into_bytes(), ordinal.to_string().into_bytes()]
}

/// Lists that are not two numbers.
pub fn bad_lists() -> Vec<Arguments> {
    let pieces: [&[u8]; 16] = [
        b"", b"01", b"00", b"+1", b"-1", b"1 ", b" 1", b"1\n", b"1\r", b"1 1", b"4294967296", b"18446744073709551617",
        b"1.0", b"x", b"\xff", b"1\xff",
    ];
    let other_lengths: [&[&[u8]]; 6] = [&[], &[b"1"], &[b"1 1"], &[b"1", b"1", b"1"], &[b"1", b"1", b""], &[b"", b"1", b"1"]];
    let mut lists: Vec<Arguments> = other_lengths.iter().map(|pieces| list(pieces)).collect();
    for piece in pieces {
        lists.extend([list(&[piece, b"1"]), list(&[b"1", piece]), list(&[piece, piece])]);
    }
    lists
}

/// The board and the steps of a script, lines of another form passed over: what
/// they turn away would be answered.
pub fn passing_over_bad_lines(script: &[u8]) -> Option<(u32, Vec<Step>)> {
    let (mut members, mut steps) = (None, Vec::new());
    for line in script.split(|byte| *byte == b'\n').filter_map(parse) {
        match line {
            Line::Members(n) => members = members.or(Some(n)),
            Line::Step(step) => steps.push(step),
        }
    }
    members.filter(|n| n_is_good(*n)).map(|n| (n, steps))
}

/// Every operation, and the members and ordinals about them.
pub fn operations_and_about(n: u32, seen: &Seen) -> Vec<(u32, u32)> {
    let begins = |member: u32| seen.operations.iter().filter(|operation| operation.member == member).count() as u32;
    (0..=n + 1).flat_map(|member| (0..=begins(member) + 1).map(move |ordinal| (member, ordinal))).collect()
}

/// So many of them all, and as many of the aborted ones.
fn some(rng: &mut Rng, script: &[u8], most: usize) -> Vec<Arguments> {
    let Some((n, steps)) = passing_over_bad_lines(script) else {
        return vec![numbers(1, 1), numbers(14, 0)];
    };
    let seen = watch(n, &steps);
    let all = operations_and_about(n, &seen);
    let aborted = all.iter().copied().filter(|(member, ordinal)| seen.aborted(*member, *ordinal).is_ok()).collect();
    let mut picked = BTreeSet::new();
    for mut left in [all, aborted] {
        for _ in 0..most.min(left.len()) {
            picked.insert(left.swap_remove(rng.below(left.len() as u64) as usize));
        }
    }
    picked.into_iter().map(|(member, ordinal)| numbers(member, ordinal)).collect()
}

pub fn asked(rng: &mut Rng, name: &str, script: Vec<u8>, most: usize) -> Asked {
    Asked { name: name.to_string(), lists: some(rng, &script, most), script }
}

// ---------------------------------------------------------------- fixed cases

/// Steps 1 to 6. The host takes 1's submit at 2, that of 2 at 4 and 1's commit
/// at 6, which is aborted.
pub const OVERTAKEN: &str = "members 2, write 1 7, deliver 1, read 2 1, deliver 2, deliver 1, deliver 1";

/// Three at slot 1, with begins and a deliver that are refused and an operation
/// on another slot. 3's first is overtaken twice, 1's first and 2's second once.
const CLASH: &str = "members 3, read 1 4, read 3 1, write 1 7, deliver 3, deliver 2, deliver 1, write 1 9, \
    read 2 3, deliver 2, deliver 2, deliver 2, deliver 2, read 2 1, deliver 2, deliver 3, deliver 3, deliver 1, deliver 1, \
    deliver 3, read 3 1, deliver 3, deliver 1, write 1 8, deliver 2, deliver 2, deliver 3, deliver 3";

/// Lines as bytes, each with its line feed.
pub fn script(lines: &str) -> Vec<u8> {
    (lines.replace(", ", "\n") + "\n").into_bytes()
}

/// The lines with another before the line of this place.
fn with_line(lines: &str, place: usize, line: &str) -> Vec<u8> {
    let mut lines: Vec<&str> = lines.split(", ").collect();
    lines.insert(place, line);
    script(&lines.join(", "))
}

fn argument_lists() -> Asked {
    let mut lists = bad_lists();
    for number in NUMBERS {
        lists.extend([list(&[number.as_bytes(), b"1"]), list(&[b"1", number.as_bytes()])]);
    }
    for byte in 1..=255 {
        lists.push(list(&[b"1", &[b'1', byte]]));
    }
    for length in [30, 5_000, 100_000] {
        lists.push(list(&[&vec![b'1'; length], b"1"]));
    }
    lists.push(vec![b"1".to_vec(); 300]);
    Asked { name: "arguments".to_string(), script: script(OVERTAKEN), lists }
}

/// On two grounds at once: which of them is printed?
fn refused_scripts() -> Vec<Asked> {
    let behind = |line: &str| OVERTAKEN.replace("members 2", line);
    let mut scripts = vec![Vec::new(), script("bid 1"), script(&behind("members 02"))];
    for members in ["0", "13", "4294967295", "4294967296"] {
        let lines = behind(&format!("members {}", members));
        scripts.extend([script(&lines), script(&format!("{}, bid 1", lines)), script(&format!("{}, {}", lines, OVERTAKEN))]);
        scripts.push([script(&lines), filling(70_000)].concat());
    }
    scripts.push(script(&format!("{}, bid 1", OVERTAKEN)));
    scripts.push([script(OVERTAKEN), filling(70_000)].concat());
    let good = [numbers(1, 1), numbers(1, 2), numbers(0, 1), numbers(3, 1), numbers(14, 1)];
    let lists = [&good[..], &bad_lists()[..8]].concat();
    scripts.into_iter().map(|script| Asked { name: "refused".to_string(), script, lists: lists.clone() }).collect()
}

/// At every place, also before the first line and behind the last verdict.
fn bad_lines() -> Vec<Asked> {
    let mut cases = Vec::new();
    for line in ["", " ", "members 3", "members 13", "bid 1", "deliver 1\r", "deliver 01", "write 1"] {
        for place in 0..=CLASH.split(", ").count() {
            let script = with_line(CLASH, place, line);
            cases.push(Asked { name: "bad_line".to_string(), script, lists: vec![numbers(1, 1)] });
        }
    }
    cases
}

/// No crash, and all is asked about; then a crash of each member, and of one that
/// is not there, at every place.
fn crashes(rng: &mut Rng) -> Vec<Asked> {
    let mut cases = vec![asked(rng, "no_crash", script(CLASH), usize::MAX)];
    for member in 1..=4 {
        for place in 1..=CLASH.split(", ").count() {
            let script = with_line(CLASH, place, &format!("crash {}", member));
            cases.push(asked(rng, &format!("crash_of_{}", member), script, 3));
        }
    }
    cases
}

/// As long as a script may be, a byte about it and longer; the operation at its
/// start or its end, the last line with its line feed, without and of another form.
fn sizes() -> Vec<Asked> {
    let mut cases = Vec::new();
    let (_, steps) = OVERTAKEN.split_once(", ").unwrap();
    let steps = script(steps);
    for first in ["members 2", "members 13"] {
        let first = script(first);
        for bytes in [65_534, 65_535, 65_536, 65_537, 131_072, 200_000] {
            let filling = filling(bytes - first.len() - steps.len());
            for script in [[&first[..], &filling, &steps].concat(), [&first[..], &steps, &filling].concat()] {
                let bare = script[..bytes - 1].to_vec();
                let bad = [&script[..bytes - 1], b"x"].concat();
                for script in [script, bare, bad] {
                    let name = format!("size_{}", script.len());
                    cases.push(Asked { name, script, lists: vec![numbers(1, 1), numbers(1, 2), list(&[b"1"])] });
                }
            }
        }
    }
    cases
}

/// Two at one slot, so many times. Of each ten steps 2's submit is the fourth,
/// and 1's operation is aborted at the sixth.
pub fn rounds(times: usize) -> Vec<u8> {
    let round = script("write 1 7, deliver 1, read 2 1, deliver 2, deliver 1, deliver 1, deliver 1, deliver 2, deliver 2, deliver 2");
    [script("members 2"), round.repeat(times)].concat()
}

// ---------------------------------------------------------------- at random

/// In a few runs bad arguments too. Of some on small boards all is asked about.
fn random_run(rng: &mut Rng, n: u32, manner: &Manner) -> Asked {
    let mut script = random_script(rng, n, manner);
    if rng.once_in(3) {
        script.pop();
    }
    let most = if n <= 4 && rng.once_in(4) { usize::MAX } else { 3 };
    let mut case = asked(rng, &format!("random_{}", n), script, most);
    if rng.once_in(10) {
        case.lists.push(rng.pick(&bad_lists()).clone());
    }
    case
}
