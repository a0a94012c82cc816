// Scripts that are the same every time: spoiled lines at every place, and runs
// that clash, crash and read their own slots.

use crate::reference::Call;
use crate::script_cases::*;

#[derive(Default)]
struct Scripts {
    made: Vec<(String, Vec<u8>)>,
}

impl Scripts {
    fn put(&mut self, name: &str, text: &[u8]) {
        self.made.push((name.to_string(), text.to_vec()));
    }
}

/// Each with its name.
pub fn fixed_scripts() -> Vec<(String, Vec<u8>)> {
    let mut scripts = Scripts::default();
    first_lines(&mut scripts);
    spoiled_steps(&mut scripts);
    numbers_in_steps(&mut scripts);
    empty_and_long_lines(&mut scripts);
    across_buffers(&mut scripts);
    known_runs(&mut scripts);
    crashes(&mut scripts);
    own_reads(&mut scripts);
    own_reads_crossing(&mut scripts);
    scripts.made
}

fn first_lines(scripts: &mut Scripts) {
    scripts.put("empty_input", b"");
    scripts.put("only_line_feed", b"\n");
    scripts.put("line_feeds", b"\n\n\n");
    scripts.put("only_space", b" ");
    scripts.put("only_nul", b"\0");
    let rest = "write 1 5\ndeliver 1\n";
    for n in 0..=13 {
        scripts.put(&format!("members_{}", n), format!("members {}\n{}", n, rest).as_bytes());
        scripts.put(&format!("members_{}_bare", n), format!("members {}", n).as_bytes());
        scripts.put(&format!("members_{}_alone", n), format!("members {}\n", n).as_bytes());
    }
    for (i, number) in NUMBERS.iter().enumerate() {
        scripts.put(&format!("members_number_{}", i), format!("members {}\n{}", number, rest).as_bytes());
        scripts.put(&format!("members_number_{}_bare", i), format!("members {}", number).as_bytes());
    }
    for n in ["2", "0", "13"] {
        for (name, line) in spoiled(&format!("members {}", n)) {
            let mut text = line.clone();
            text.extend_from_slice(b"\n");
            text.extend_from_slice(rest.as_bytes());
            scripts.put(&format!("first_{}_{}", n, name), &text);
            scripts.put(&format!("first_{}_{}_bare", n, name), &line);
        }
    }
    for line in ["write 1 5", "read 1 2", "deliver 1", "crash 1", "board 2", "# members 2"] {
        scripts.put("first_other", format!("{}\nmembers 2\n{}", line, rest).as_bytes());
    }
    scripts.put("first_after_empty", format!("\nmembers 2\n{}", rest).as_bytes());
    scripts.put("members_twice", format!("members 2\nmembers 2\n{}", rest).as_bytes());
}

/// Every spoiled form, between good lines, once with and once without its line feed at the end.
fn spoiled_steps(scripts: &mut Scripts) {
    for line in ["write 1 77", "read 1 2", "deliver 1", "crash 1"] {
        let word = &line[..4];
        let mut all: Vec<u8> = b"members 2\n".to_vec();
        for (name, bad) in spoiled(line) {
            all.extend_from_slice(&bad);
            all.extend_from_slice(b"\n");
            let mut alone = b"members 2\nread 2 1\n".to_vec();
            alone.extend_from_slice(&bad);
            scripts.put(&format!("step_{}_{}_bare", word, name), &alone);
        }
        all.extend_from_slice(b"write 1 5\ndeliver 1\n");
        scripts.put(&format!("step_{}_all", word), &all);
    }
}

/// Every number in every place, in several states of the member.
fn numbers_in_steps(scripts: &mut Scripts) {
    for state in ["", "write 1 9\n", "write 1 9\ndeliver 1\n", "write 1 9\ndeliver 1\ndeliver 1\n", "crash 1\n"] {
        let mut text = format!("members 3\n{}", state);
        for number in NUMBERS {
            text += &format!("deliver {}\ncrash {}\nwrite {} 1\nread {} 2\nread 2 {}\n", number, number, number, number, number);
        }
        scripts.put("numbers", text.as_bytes());
    }
    for (i, number) in NUMBERS.iter().enumerate() {
        let text = format!("members 2\nwrite 1 {}\ndeliver 1\ndeliver 1\ndeliver 1\ndeliver 1\nread 2 1\ndeliver 2\ndeliver 2\ndeliver 2\ndeliver 2", number);
        scripts.put(&format!("value_{}", i), text.as_bytes());
    }
}

fn empty_and_long_lines(scripts: &mut Scripts) {
    scripts.put("empty_lines", b"members 2\n\n\nwrite 1 5\n\ndeliver 1\n\n\n");
    scripts.put("cr_lf", b"members 2\nwrite 1 5\r\ndeliver 1\r\n\r\n");
    scripts.put("cr_lf_first", b"members 2\r\nwrite 1 5\r\n");
    scripts.put("only_cr", b"members 2\rwrite 1 5\r");
    for (name, byte) in [("digits", b'1'), ("zeros", b'0'), ("spaces", b' '), ("nuls", 0), ("high", 0xFF)] {
        let mut text = b"members 2\ndeliver ".to_vec();
        text.extend(vec![byte; 200_000]);
        text.extend_from_slice(b"\nwrite 1 5\ndeliver 1");
        text.extend(vec![byte; 70_000]);
        scripts.put(&format!("long_line_{}", name), &text);
        let mut first = b"members 2".to_vec();
        first.extend(vec![byte; 200_000]);
        first.extend_from_slice(b"\nwrite 1 5\n");
        scripts.put(&format!("long_first_{}", name), &first);
    }
}

/// A line that falls across likely buffer ends.
fn across_buffers(scripts: &mut Scripts) {
    for size in [4096usize, 8192, 65536] {
        for shift in 0..3 {
            let mut text = b"members 2\n".to_vec();
            while text.len() + 2 < size - 5 - shift {
                text.extend_from_slice(b"x\n");
            }
            text.extend_from_slice(b"write 1 123456\ndeliver 1\ndeliver 1\ndeliver 1\ndeliver 1\n");
            scripts.put("across_buffer", &text);
        }
    }
}

fn known_runs(scripts: &mut Scripts) {
    let text = script_of(2, &[whole(write(1, 77)), whole(read(2, 1))].concat());
    scripts.put("example", &text);
    scripts.put("example_bare", &text[..text.len() - 1]);
    // P6 to P8.
    let mut calls = vec![read(1, 3), read(2, 3)];
    for _ in 0..4 {
        calls.extend([deliver(1), deliver(2)]);
    }
    for (member, slot) in [(2, 2), (1, 2), (1, 3)] {
        calls.extend(whole(begin(member, slot, 8)));
    }
    scripts.put("p6_to_p8", &script_of(3, &calls));
    for n in 1..=12 {
        for slot in [1, n] {
            scripts.put(&format!("crowd_{}", n), &script_of(n, &crowd(n, slot)));
        }
        scripts.put(&format!("round_{}", n), &script_of(n, &all_round(n)));
    }
}

/// All members at one slot, step by step, forwards and backwards. In every
/// third round the owner reads.
fn crowd(n: u32, slot: u32) -> Vec<Call> {
    let mut calls = Vec::new();
    for round in 0..6 {
        let order: Vec<u32> = if round % 2 == 0 { (1..=n).collect() } else { (1..=n).rev().collect() };
        let begins = |member: u32, value: u32| if round % 3 == 2 { read(member, slot) } else { begin(member, slot, value) };
        for member in &order {
            calls.push(begins(*member, 1000 * round + member));
        }
        for _ in 0..4 {
            calls.extend(order.iter().rev().map(|member| deliver(*member)));
        }
        // Nobody in the way.
        for member in &order {
            calls.extend(whole(begins(*member, 2000 * round + member)));
        }
    }
    calls
}

/// Each member goes round all slots, so that matrices fill up; in the second
/// of three times it reads its own.
fn all_round(n: u32) -> Vec<Call> {
    let mut calls = Vec::new();
    for round in 0..3 {
        for shift in 0..n {
            for member in 1..=n {
                let slot = (member + shift - 1) % n + 1;
                calls.push(if round == 1 { read(member, slot) } else { begin(member, slot, 100 * round + member) });
            }
            for step in 0..4 {
                calls.extend((1..=n).map(|member| deliver((member + step) % n + 1)));
            }
        }
    }
    calls
}

/// Member 1 of 3 crashes in each phase, with and without a rival: reading
/// another's slot, writing its own, reading its own before and after a write.
/// Then every call after it.
fn crashes(scripts: &mut Scripts) {
    for (begins, written) in [(read(1, 2), false), (write(1, 41), false), (read(1, 1), false), (read(1, 1), true)] {
        for steps in 0..=5 {
            for (rival, crash_again) in [(false, false), (false, true), (true, false), (true, true)] {
                let mut calls = whole(write(2, 40));
                if written {
                    calls.extend(whole(write(1, 39)));
                }
                calls.extend(crash_after(&begins, steps, rival));
                if crash_again {
                    calls.push(Call::Crash { member: 1 });
                }
                calls.extend(after_crash(&begins));
                scripts.put("crash", &script_of(3, &calls));
            }
        }
    }
}

/// Member 1 makes so many steps of its operation and crashes; the rival's
/// submit comes after its own.
pub fn crash_after(begins: &Call, steps: usize, rival: bool) -> Vec<Call> {
    let (_, slot) = member_and_slot(begins);
    let mut calls = whole(begins.clone())[..steps].to_vec();
    if rival && steps > 1 {
        calls.splice(2..2, [read(3, slot), deliver(3)]);
    }
    calls.push(Call::Crash { member: 1 });
    calls
}

/// The crashed member's calls, then the others' on the same slot.
fn after_crash(begins: &Call) -> Vec<Call> {
    let (_, slot) = member_and_slot(begins);
    let mut calls = vec![begins.clone()];
    calls.extend(vec![deliver(1); 3]);
    calls.extend(vec![deliver(3); 4]);
    for _ in 0..2 {
        calls.extend(whole(read(3, slot)));
    }
    calls.extend(whole(begin(2, slot, 43)));
    calls.push(Call::Crash { member: 1 });
    calls
}

/// Reads of the own slot, first unwritten, then after writes; each is
/// followed by an own read, or by all the others' reads of the slot, or by both.
fn own_reads(scripts: &mut Scripts) {
    for n in [1, 2, 3, 12] {
        let by_owner = whole(read(1, 1));
        let by_others: Vec<Call> = (2..=n).flat_map(|member| whole(read(member, 1))).collect();
        let mut calls = [&by_owner[..], &by_owner, &by_others].concat();
        for value in [7, 4294967295, 0] {
            calls.extend(whole(write(1, value)));
            for reads in [&by_owner, &by_others, &by_owner, &by_owner, &by_others, &by_others] {
                calls.extend_from_slice(reads);
            }
        }
        scripts.put(&format!("own_reads_{}", n), &script_of(n, &calls));
    }
    // Of a busy member, of a crashed one, and where there is no such member.
    scripts.put("own_reads_refused", b"members 2\nread 1 1\nread 1 1\nwrite 1 5\ncrash 1\nread 1 1\nread 2 2\nread 3 3\nread 0 0\n");
}

/// Two operations cross, the second's submit coming after each step of the
/// first; one of the two at least is an own read. Then both members and a
/// third read the slot.
fn own_reads_crossing(scripts: &mut Scripts) {
    let pairs = [(read(1, 1), read(2, 1)), (read(2, 1), read(1, 1)), (read(1, 1), read(2, 2)), (read(1, 1), read(2, 3))];
    for (first, second) in &pairs {
        for written in [false, true] {
            for steps in 1..=4 {
                let mut calls = if written { whole(write(1, 60)) } else { Vec::new() };
                let (one, other) = (whole(first.clone()), whole(second.clone()));
                calls.extend_from_slice(&one[..steps]);
                calls.extend_from_slice(&other[..2]);
                calls.extend_from_slice(&one[steps..]);
                calls.extend_from_slice(&other[2..]);
                for member in [2, 1, 3] {
                    calls.extend(whole(read(member, 1)));
                }
                scripts.put("own_read_crossing", &script_of(3, &calls));
            }
        }
    }
}
