// The check of a log through the C interface and in plain Rust, on the same logs. bench/run.sh builds and runs it.
mod plain_log;
mod timing;

use plain_log::{MOST_ROWS, READ, ROW, WRITE};
use std::hint::black_box;
use timing::{compare, heading, used};

extern "C" {
    fn concur_log_check(log: *const u32, words: usize, n: u32, verdict: *mut u32, verdict_words: usize) -> u32;
}

fn our_check(log: &[u32], n: u32, verdict: &mut [u32]) -> u32 {
    unsafe { concur_log_check(log.as_ptr(), log.len(), n, verdict.as_mut_ptr(), verdict.len()) }
}

#[inline(never)]
fn plain_check(log: &[u32], n: u32, verdict: &mut [u32]) -> u32 {
    plain_log::check(log, n, verdict)
}

/// Whole operations one after the other, of five steps each as on the board, that hold. Members and slots are drawn, and one in three
/// operations is a write, so that no row tells what the next one is.
fn a_log(n: u32, rows: usize) -> Vec<u32> {
    let mut drawn = 1u32;
    let mut draw = |of: u32| {
        drawn = drawn.wrapping_mul(1664525).wrapping_add(1013904223);
        (drawn >> 16) % of
    };
    let mut values = vec![[0; 8]; n as usize];
    let mut log = Vec::with_capacity(rows * ROW);
    for k in 0..rows as u32 {
        let member = 1 + draw(n);
        let (operation, slot) = if draw(3) == 0 { (WRITE, member) } else { (READ, 1 + draw(n)) };
        let value = &mut values[slot as usize - 1];
        if operation == WRITE {
            *value = [k + 1; 8];
        }
        log.extend([member, operation, slot]);
        log.extend(*value);
        log.extend([5 * k + 1, 5 * k + 4, 5 * k + 5]);
    }
    log
}

/// Both must do the same before their times mean anything.
fn same(log: &[u32], n: u32, verdict_words: usize) -> Vec<u32> {
    let (mut a, mut b) = (vec![7; verdict_words], vec![7; verdict_words]);
    assert_eq!(our_check(log, n, &mut a), plain_check(log, n, &mut b));
    assert_eq!(a, b);
    a
}

/// Also on numbers and lengths that are refused, and where one word of the log is another.
fn same_near(log: &[u32], n: u32) {
    for wrong in [0, 13] {
        same(log, wrong, 1);
    }
    for words in [0, 2] {
        same(log, n, words);
    }
    same(&log[1..], n, 1);
    same(&a_log(n, MOST_ROWS + 1), n, 1);
    let mut near = log.to_vec();
    for at in 0..log.len() {
        for word in [0, log[at].wrapping_sub(1), log[at] + 1] {
            near[at] = word;
            same(&near, n, 1);
        }
        near[at] = log[at];
    }
}

fn time(what: &str, log: &[u32], n: u32, verdict: u32) {
    assert_eq!(same(log, n, 1), [verdict]);
    let (mut a, mut b) = ([7], [7]);
    let check = compare(
        || used(our_check(black_box(log), black_box(n), black_box(&mut a))),
        || used(plain_check(black_box(log), black_box(n), black_box(&mut b))),
    );
    check.print(&format!("log, {}, n = {}", what, n));
}

fn main() {
    heading();
    for n in [2, 6, 12] {
        let mut log = a_log(n, MOST_ROWS);
        same_near(&log, n);
        time("yes", &log, n, 1);
        // The last row ends where it was accepted.
        let last = log.len();
        log[last - 1] = log[last - 2];
        time("last row wrong", &log, n, 0);
    }
}
