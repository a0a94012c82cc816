// The message check of an earlier revision, the one that stands here, and plain Rust's. `bench/run.sh REVISION` builds and runs it.
#[allow(dead_code)]
mod plain_messages;
mod samples;
#[allow(dead_code)]
mod timing;

use samples::each_message;
use std::hint::black_box;
use timing::{best, round, used};

extern "C" {
    fn earlier_concur_message_check(bytes: *const u8, length: usize, n: u32) -> u32;
    fn concur_message_check(bytes: *const u8, length: usize, n: u32) -> u32;
}

fn earlier(bytes: &[u8], n: u32) -> u32 {
    unsafe { earlier_concur_message_check(bytes.as_ptr(), bytes.len(), n) }
}

fn now(bytes: &[u8], n: u32) -> u32 {
    unsafe { concur_message_check(bytes.as_ptr(), bytes.len(), n) }
}

#[inline(never)]
fn plain(bytes: &[u8], n: u32) -> u32 {
    plain_messages::check(bytes, n)
}

/// All three must do the same before their times mean anything.
fn same(bytes: &[u8], n: u32) {
    let answer = plain(bytes, n);
    assert_eq!(earlier(bytes, n), answer);
    assert_eq!(now(bytes, n), answer);
}

fn time(what: &str, bytes: &[u8], n: u32) {
    let times = best(vec![
        round(|| used(earlier(black_box(bytes), black_box(n)))),
        round(|| used(now(black_box(bytes), black_box(n)))),
        round(|| used(plain(black_box(bytes), black_box(n)))),
    ]);
    let (was, is, plain) = (times[0], times[1], times[2]);
    let name = format!("check {}, n = {}", what, n);
    println!("{:<28} {:>9.1} {:>9.1} {:>9.1} {:>9.2} {:>9.2}", name, was, is, plain, is / was, is / plain);
}

fn main() {
    println!("{:<28} {:>9} {:>9} {:>9} {:>9} {:>9}", "nanoseconds of a check", "earlier", "now", "plain", "/ earlier", "/ plain");
    for n in [2, 6, 12] {
        each_message(n, |what, bytes| {
            same(bytes, n);
            same(&bytes[..bytes.len() - 1], n);
            time(what, bytes, n);
        });
    }
}
