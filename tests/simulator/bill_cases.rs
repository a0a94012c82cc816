// What is asked of the bill program: scripts about the end of the free
// operations, aborts and crashes there, sums of every kind, and the last step.

use crate::fixed_scripts::{crash_after, fixed_scripts};
use crate::reference::Call;
use crate::rng::Rng;
use crate::script::MOST_STEPS;
use crate::script_cases::*;

/// Each with its name.
type Scripts = Vec<(String, Vec<u8>)>;

/// The long ones come last.
pub fn cases(rng: &mut Rng, runs: u32) -> Scripts {
    let mut cases = numbers_of_operations();
    cases.extend(about_the_hundredth());
    cases.extend(sums());
    cases.extend(aborts());
    cases.extend(crashes());
    cases.extend(boards());
    cases.extend(lines_between(rng));
    cases.extend(spoiled_lines().into_iter().map(|(word, text)| (format!("spoiled_{}", word), text)));
    cases.extend(fixed_scripts());
    cases.extend(random_runs(rng, runs));
    cases.extend(last_steps());
    cases.extend(most_operations(rng));
    cases
}

fn named(name: &str, n: u32, calls: &[Call]) -> (String, Vec<u8>) {
    (name.to_string(), script_of(n, calls))
}

/// A write, an own read and a read of another's slot.
fn kinds(member: u32, other: u32) -> [Call; 3] {
    [write(member, 5), read(member, member), read(member, other)]
}

// ---------------------------------------------------------------- the free ones

fn numbers_of_operations() -> Scripts {
    let mut cases = vec![named("nothing", 3, &[])];
    for begin in kinds(1, 2) {
        for number in [1, 98, 99, 100, 101, 102, 103, 110, 255, 256, 257, 300, 357] {
            cases.push(named(&format!("number_{}", number), 2, &times(begin, number)));
        }
    }
    cases
}

/// Every kind as the 99th, the 100th, the 101st and the 102nd; what comes before goes to one slot or to several.
fn about_the_hundredth() -> Scripts {
    let mut cases = Vec::new();
    for choice in 0..81 {
        let kind = |place: u32| kinds(2, 3)[choice / 3_usize.pow(place) % 3];
        let before: Vec<Call> = (0..98).flat_map(|turn| whole(if choice % 2 == 0 { write(2, 5) } else { read(2, turn % 3 + 1) })).collect();
        let about: Vec<Call> = (0..4).flat_map(|place| whole(kind(place))).collect();
        cases.push(named("hundredth", 3, &[before, about].concat()));
    }
    // 100 on each slot of one member, and 100 of all members together.
    cases.push(named("by_slot", 3, &(1..=3).flat_map(|slot| times(read(3, slot), 100)).collect::<Vec<_>>()));
    cases.push(named("shared", 3, &(1..=3).flat_map(|member| times(write(member, 5), 50)).collect::<Vec<_>>()));
    cases
}

/// Writes and reads behind the free ones of two members, so that every sum of tenths comes up, and with every other.
fn sums() -> Scripts {
    let mut cases = Vec::new();
    let billed = |member: u32, writes: usize, reads: usize| {
        [times(read(member, 1), 100), times(read(member, 2), reads), times(write(member, 5), writes)].concat()
    };
    for writes in 0..=2 {
        for reads in 0..=9 {
            let second = billed(2, (writes + reads) % 2, (reads * 3 + writes) % 5);
            cases.push(named("sums", 2, &[billed(1, writes, reads), second].concat()));
        }
    }
    cases
}

// ---------------------------------------------------------------- aborts and crashes

/// It is overtaken by another's read, which is accepted, and both are told.
fn overtaken(begin: Call, other: u32) -> Vec<Call> {
    let (one, two) = (whole(begin), whole(read(other, member_and_slot(&begin).1)));
    [&one[..2], &two[..2], &one[2..], &two[2..]].concat()
}

/// So many aborted operations of each kind before so many that are accepted, and others behind.
fn aborts() -> Scripts {
    let mut cases = Vec::new();
    for begin in kinds(1, 2) {
        for before in [0, 1, 99, 100, 101, 102] {
            for aborted in [1, 3, 11] {
                let clash = overtaken(begin, 2).repeat(aborted);
                for behind in [0, 1, 5] {
                    cases.push(named("aborts", 2, &[times(begin, before), clash.clone(), times(begin, behind)].concat()));
                }
            }
        }
        cases.push(named("aborts_alone", 2, &overtaken(begin, 2).repeat(120)));
        cases.push(named("aborts_among", 2, &[times(begin, 40), overtaken(begin, 2).repeat(61), times(begin, 61)].concat()));
    }
    cases
}

/// Member 1 crashes at each step of an operation about the hundredth, overtaken
/// or not, and all that can still be delivered is; then the others go on.
fn crashes() -> Scripts {
    let mut cases = Vec::new();
    for begin in kinds(1, 2) {
        for before in [98, 99, 100, 101] {
            for steps in 0..=5 {
                for rival in [false, true] {
                    let mut calls = times(begin, before);
                    calls.extend(crash_after(&begin, steps, rival));
                    cases.push(named("crash", 3, &calls));
                    calls.extend(vec![deliver(1); 4]);
                    calls.push(begin);
                    calls.extend(times(read(3, 1), 101));
                    cases.push(named("crash_and_on", 3, &calls));
                }
            }
        }
    }
    cases
}

// ---------------------------------------------------------------- boards

/// On boards of each size all members above the free ones, by more and more, and one alone of all.
fn boards() -> Scripts {
    let mut cases = Vec::new();
    for n in 1..=12 {
        let next = |member: u32| member % n + 1;
        let all = |turn: u32| (1..=n).filter(move |member| turn < 100 + member);
        let mut calls: Vec<Call> = Vec::new();
        for turn in 0..112 {
            calls.extend(all(turn).flat_map(|member| whole(kinds(member, next(member))[(turn + member) as usize % 3])));
        }
        cases.push(named(&format!("board_{}", n), n, &calls));
        for member in [1, n] {
            cases.push(named(&format!("alone_{}", n), n, &times(write(member, 5), 103)));
        }
    }
    cases
}

/// Bad lines and refused calls between the steps, the last of which is the
/// acceptance that costs; it lacks its line feed, or ends otherwise.
fn lines_between(rng: &mut Rng) -> Scripts {
    let mut cases = Vec::new();
    let calls = times(write(2, 5), 101);
    let good = script_of(2, &calls[..calls.len() - 1]);
    for line in ["x", "", "members 2", "deliver 1", "deliver 0", "write 2 7", "read 3 1", "read 1 3", "crash 3", "deliver 2\r"] {
        let text = String::from_utf8(good.clone()).unwrap();
        let text = text.replace('\n', &format!("\n{}\n", line));
        cases.push(("between".to_string(), text.into_bytes()));
    }
    for last in ["", "\n", " ", "\r\n", "\n\n", "2", "\0", "\ndeliver 2", "\ncrash 2", "\nx"] {
        let text = [&good[..good.len() - 1], last.as_bytes()].concat();
        cases.push(("ends".to_string(), text));
    }
    for cut in 1..=20 {
        cases.push(("cut".to_string(), good[..good.len() - cut].to_vec()));
    }
    for length in [70_000, 200_000] {
        let long = vec![*rng.pick(b"1x \0"); length];
        let place = good.len() - "deliver 2\n".len();
        cases.push(("long_line".to_string(), [&good[..place], &long, b"\n", &good[place..]].concat()));
    }
    cases
}

/// A line of 2's 101st operation in every spoiled form, the others as they should
/// be: taken for a good one it would change the bill. Each with the line's word.
pub fn spoiled_lines() -> Vec<(&'static str, Vec<u8>)> {
    let mut cases = Vec::new();
    let free = script_of(2, &times(write(2, 5), 100));
    for (before, line, behind) in [
        ("", "write 2 5", "deliver 2\ndeliver 2\ndeliver 2\n"),
        ("", "read 2 1", "deliver 2\ndeliver 2\ndeliver 2\n"),
        ("write 2 5\n", "deliver 2", "deliver 2\ndeliver 2\n"),
        ("write 2 5\ndeliver 2\n", "crash 2", "deliver 2\ndeliver 2\n"),
        ("write 2 5\ndeliver 2\ndeliver 2\n", "deliver 2", ""),
    ] {
        let word = line.split(' ').next().unwrap();
        let mut forms: Vec<Vec<u8>> = spoiled(line).into_iter().map(|(_, form)| form).collect();
        forms.push(line.replacen(' ', " 0", 1).into_bytes());
        for form in forms {
            let text = [&free[..], before.as_bytes(), &form, b"\n", behind.as_bytes()].concat();
            if behind.is_empty() {
                cases.push((word, text[..text.len() - 1].to_vec()));
            }
            cases.push((word, text));
        }
    }
    cases
}

// ---------------------------------------------------------------- at random

/// Every member's free operations nearly used up, then a run with clashes, crashes and bad lines.
fn random_runs(rng: &mut Rng, runs: u32) -> Scripts {
    let mut cases = Vec::new();
    for run in 0..runs {
        let n = run % 12 + 1;
        let manner = Manner {
            steps: *rng.pick(&[40, 200, 1_000, 2_000]),
            busy: *rng.pick(&[1, 2, 3, 12]),
            slots: *rng.pick(&[1, 2, 12]),
            crash_once_in: *rng.pick(&[40, 300, 1_000_000]),
            bad_once_in: *rng.pick(&[5, 40, 1_000_000]),
            astray_once_in: *rng.pick(&[3, 30]),
        };
        let mut text = script_of(n, &nearly_free(rng, n));
        let rest = random_script(rng, n, &manner);
        let first = rest.iter().position(|byte| *byte == b'\n').unwrap() + 1;
        text.extend_from_slice(&rest[first..]);
        if rng.once_in(3) {
            text.pop();
        }
        cases.push((format!("random_{}", n), text));
    }
    cases.extend((0..runs / 4).map(|_| any_script(rng)).map(|(n, text)| (format!("any_{}", n), text)));
    cases
}

/// Of each member so many operations of any kind that few or none are left free.
fn nearly_free(rng: &mut Rng, n: u32) -> Vec<Call> {
    let mut calls = Vec::new();
    for member in 1..=n {
        for _ in 0..rng.between(92, 101) {
            let slot = rng.between(1, n);
            calls.extend(whole(any_begin(rng, member, slot)));
        }
    }
    calls
}

// ---------------------------------------------------------------- the last step

/// Two members before the verdict on an operation that costs: the first has it
/// at the last step, the second would have it behind. What fills up is of another
/// form, is refused, or is both.
fn last_steps() -> Scripts {
    let mut cases = Vec::new();
    let before: Vec<Call> = (1..=2).flat_map(|member| times(write(member, 5), 100)).collect();
    let waiting: Vec<Call> = (1..=2).flat_map(|member| whole(write(member, 5))[..3].to_vec()).collect();
    let good = script_of(2, &[before, waiting].concat());
    let made = good.iter().filter(|byte| **byte == b'\n').count() as u64 - 1;
    for (fill, more, last_feed) in [("x\n", 1, true), ("deliver 9\n", 1, false), ("\ndeliver 0\n", 0, false), ("\ncrash 0\n", 2, true)] {
        let lines = fill.matches('\n').count() as u64;
        let left = MOST_STEPS - 1 - made;
        let mut text = [&good[..], &fill.repeat((left / lines) as usize).into_bytes()].concat();
        text.extend(b"x\n".repeat((left % lines) as usize));
        text.extend_from_slice(b"deliver 1\n");
        text.extend(b"deliver 2\n".repeat(more));
        if !last_feed {
            text.pop();
        }
        cases.push((format!("last_step_and_{}", more), text));
    }
    cases
}

/// As many accepted operations as there is room for. Each takes five steps, and
/// the last of a member four if it is not told: 200,000 of one member, 200,001
/// of five, of whom none is told, and 200,002 of twelve, of whom two are. Then a
/// busy run that goes on behind the last step.
fn most_operations(rng: &mut Rng) -> Scripts {
    let mut cases = vec![named("most_of_one", 1, &times(write(1, 5), 200_001))];
    for n in [5, 12] {
        let not_told = n / 5 * 5;
        let operations = (MOST_STEPS as u32 + not_told) / 5;
        let mut calls = Vec::new();
        for turn in 0..operations {
            let (member, slot) = (turn % n + 1, rng.between(1, n));
            let steps = if turn + not_told < operations { 5 } else { 4 };
            calls.extend_from_slice(&whole(any_begin(rng, member, slot))[..steps]);
        }
        assert_eq!(calls.len() as u64, MOST_STEPS);
        calls.extend((1..=n).flat_map(|member| [deliver(member), deliver(member)]));
        cases.push(named(&format!("most_of_{}", n), n, &calls));
    }
    let manner = Manner { steps: MOST_STEPS as u32 + 50, slots: 3, crash_once_in: 1_000_000_000, bad_once_in: 40, ..USUAL };
    cases.push(("busy".to_string(), random_script(rng, 3, &manner)));
    cases
}
