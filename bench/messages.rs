// The message check, the reader and the writer, proved and in plain Rust. bench/run.sh builds and runs it.
mod plain_messages;
mod samples;
mod timing;

use plain_messages as plain;
use samples::each_message;
use std::hint::black_box;
use timing::{compare, heading, used};

// A reading answers the sum of two counts. Both readers stand as functions of their own in the program, so the whole message is made.
mod ours {
    extern "C" {
        pub fn concur_message_check(bytes: *const u8, length: usize, n: u32) -> u32;
        pub fn concur_bench_read(bytes: *const u8, length: usize, n: u32) -> u32;
        pub fn concur_bench_write(bytes: *const u8, length: usize, n: u32, out: *mut u8, room: usize, more: u32) -> u32;
    }
}

fn our_check(bytes: &[u8], n: u32) -> u32 {
    unsafe { ours::concur_message_check(bytes.as_ptr(), bytes.len(), n) }
}

fn our_read(bytes: &[u8], n: u32) -> u32 {
    unsafe { ours::concur_bench_read(bytes.as_ptr(), bytes.len(), n) }
}

fn our_write(bytes: &[u8], n: u32, out: &mut [u8], more: u32) -> u32 {
    unsafe { ours::concur_bench_write(bytes.as_ptr(), bytes.len(), n, out.as_mut_ptr(), out.len(), more) }
}

#[inline(never)]
fn plain_check(bytes: &[u8], n: u32) -> u32 {
    plain::check(bytes, n)
}

#[inline(never)]
fn plain_read(bytes: &[u8], n: u32) -> u32 {
    let m = plain::read(bytes, n);
    m.newest.count.wrapping_add(m.stored.count)
}

#[inline(never)]
fn plain_write(bytes: &[u8], n: u32, out: &mut [u8], more: u32) -> u32 {
    let m = plain::read(bytes, n);
    let (number, _) = plain::write(m, n, out);
    for _ in 0..more {
        plain::write(m, n, out);
    }
    number
}

#[inline(never)]
fn plain_write_copied(bytes: &[u8], n: u32, out: &mut [u8], more: u32) -> u32 {
    let m = plain::read(bytes, n);
    let number = plain::write_copied(m, n, out.as_mut_ptr(), out.len());
    for _ in 0..more {
        plain::write_copied(m, n, out.as_mut_ptr(), out.len());
    }
    number
}

/// Both must do the same before their times mean anything.
fn same(bytes: &[u8], n: u32) {
    assert_eq!(our_check(bytes, n), plain_check(bytes, n));
    assert_eq!(our_read(bytes, n), plain_read(bytes, n));
    for room in [1300, bytes.len(), bytes.len() - 1] {
        let (mut a, mut b) = (vec![7u8; room], vec![7u8; room]);
        assert_eq!(our_write(bytes, n, &mut a, 1), plain_write(bytes, n, &mut b, 1));
        assert_eq!(a, b);
    }
}

type Writer = fn(&[u8], u32, &mut [u8], u32) -> u32;

// A message is read once for so many writings.
const WRITINGS: u32 = 1000;

fn time(what: &str, bytes: &[u8], n: u32) {
    let name = |call: &str| format!("{} {}, n = {}", call, what, n);
    let check = compare(
        || used(our_check(black_box(bytes), black_box(n))),
        || used(plain_check(black_box(bytes), black_box(n))),
    );
    check.print(&name("check"));
    let read = compare(
        || used(our_read(black_box(bytes), black_box(n))),
        || used(plain_read(black_box(bytes), black_box(n))),
    );
    read.print(&name("read"));
    for (call, plain_way) in [("write", plain_write as Writer), ("write, copied,", plain_write_copied)] {
        let (mut a, mut b) = (vec![0u8; 1235], vec![0u8; 1235]);
        let write = compare(
            || used(our_write(black_box(bytes), black_box(n), black_box(&mut a), WRITINGS - 1)),
            || used(plain_way(black_box(bytes), black_box(n), black_box(&mut b), WRITINGS - 1)),
        );
        write.each_of(WRITINGS).print(&name(call));
    }
}

fn main() {
    heading();
    for n in [2, 12] {
        each_message(n, |what, bytes| {
            same(bytes, n);
            same(&bytes[..bytes.len() - 1], n);
            time(what, bytes, n);
        });
    }
}
