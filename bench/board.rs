// The board's calls through the C interface and in plain Rust, on the same tables. bench/run.sh builds and runs it.
mod plain_board;
mod scenes;
mod timing;

use plain_board as plain;
use plain_board::Layout;
use scenes::{begun, delivered, each_phase, must, operation, ours, used_board, Begin, Deliver, Scene, VALUE};
use std::hint::black_box;
use std::time::Instant;
use timing::{heading, Pair};

type Open = fn(&mut [u32], u32) -> u32;
type Crash = fn(&mut [u32], u32) -> u32;

/// A call of which there is one plain version.
fn two<F: Fn(&mut [u32]) -> u32>(scene: &Scene, what: &str, ways: [F; 2], answer: u32) {
    let after = scene.alike(&ways, answer);
    scene.repeats(&ways[0], &after);
    let times = scene.times(&ways);
    Pair { ours: times[0], plain: times[1] }.print(what);
}

fn print_three(what: &str, times: &[f64]) {
    let (ours, value, place) = (times[0], times[1], times[2]);
    println!("{:<28} {:>9.1} {:>9.1} {:>9.1} {:>9.2} {:>9.2}", what, ours, value, place, ours / value, ours / place);
}

fn heading_three() {
    println!("{:<28} {:>9} {:>9} {:>9} {:>9} {:>9}", "nanoseconds of a deliver", "ours", "by value", "in place", "/ value", "/ place");
}

fn opening(n: u32) {
    let scene = Scene { table: used_board(n), back: vec![] };
    let ways = [ours::open as Open, plain::open].map(|f| move |t: &mut [u32]| f(t, black_box(n)));
    two(&scene, &format!("open, n = {}", n), ways, 0);
}

fn beginning(name: &str, begins: [Begin; 2], n: u32, member: u32, slot: u32) {
    let what = format!("{} of a {}", name, if member == slot { "write" } else { "read" });
    let times = Scene::begins(n, member, slot, begins);
    Pair { ours: times[0], plain: times[1] }.print(&format!("{}, n = {}", what, n));
    let mut scene = Scene { table: used_board(n), back: vec![] };
    begun(&mut scene.table, member, slot);
    let ways = begins.map(|f| move |t: &mut [u32]| f(t, black_box(member), slot, operation(member, slot), &VALUE));
    two(&scene, &format!("{}, 8, n = {}", what, n), ways, 8);
}

fn crashing(n: u32, member: u32) {
    let at = Layout::of(n as usize).block_at(member);
    let mut scene = Scene { table: used_board(n), back: vec![at..at + 2] };
    let ways = [ours::crash as Crash, plain::crash].map(|f| move |t: &mut [u32]| f(t, black_box(member)));
    two(&scene, &format!("crash, n = {}", n), ways, 0);
    must(ours::crash(&mut scene.table, member));
    two(&scene, &format!("crash, 11, n = {}", n), ways, 11);
    let ways = [ours::deliver as Deliver, plain::by_value::deliver].map(|f| move |t: &mut [u32]| f(t, black_box(member), &mut [0; 9]));
    two(&scene, &format!("deliver, 10, n = {}", n), ways, 10);
}

/// Deliver, of which there are two plain versions.
fn delivering(n: u32, member: u32, slot: u32) {
    let delivers: [Deliver; 3] = [ours::deliver, plain::by_value::deliver, plain::in_place::deliver];
    each_phase(n, member, slot, |what, scene| print_three(what, &scene.deliveries(delivers, member)));
}

/// A whole operation, alone: begin and four delivers. Nothing needs to be put back.
fn whole(n: u32, member: u32, slot: u32) {
    let scene = Scene { table: used_board(n), back: vec![] };
    let calls: [(Begin, Deliver); 3] =
        [(ours::begin, ours::deliver), (plain::begin, plain::by_value::deliver), (plain::begin, plain::in_place::deliver)];
    let ways = calls.map(|(begin, deliver)| {
        move |t: &mut [u32]| {
            let mut answers = begin(t, black_box(member), slot, operation(member, slot), &VALUE);
            for _ in 0..4 {
                answers += deliver(t, black_box(member), &mut [0; 9]);
            }
            answers
        }
    });
    scene.alike(&ways, 0);
    print_three(&format!("a whole {}, n = {}", if member == slot { "write" } else { "read" }, n), &scene.times(&ways));
}

/// A long run of whole operations, member after member and slot after slot: the cost of a call in each tenth of it. A tenth is timed in a
/// hundred pieces, of which the middle one counts, so that a slow moment of the machine does not.
fn long_run(n: u32, operations: u32) {
    let mut t = used_board(n);
    let piece = operations / 1000;
    let mut pieces = Vec::new();
    for first in (0..operations).step_by(piece as usize) {
        let start = Instant::now();
        for k in first..first + piece {
            let (member, slot) = (k % n + 1, k / n % n + 1);
            begun(&mut t, member, slot);
            delivered(&mut t, member, 4);
        }
        pieces.push(start.elapsed().as_nanos() as u32 / (5 * piece));
    }
    let tenths = pieces.chunks_mut(100).map(|tenth| {
        tenth.sort();
        tenth[50].to_string()
    });
    println!("{} calls on one board, n = {}: nanoseconds of a call in each tenth {}", operations * 5, n, tenths.collect::<Vec<_>>().join(" "));
}

fn main() {
    for n in [2, 6, 12] {
        heading();
        opening(n);
        for slot in [1, n] {
            beginning("begin", [ours::begin, plain::begin], n, n, slot);
            if n <= 4 {
                beginning("auction begin", [ours::auction_begin, plain::auction_begin], n, n, slot);
            }
        }
        crashing(n, n);
        heading_three();
        delivering(n, n, 1);
        delivering(n, n, n);
        whole(n, n, 1);
        whole(n, n, n);
        println!();
    }
    for n in [2, 12] {
        long_run(n, 1_000_000);
    }
}
