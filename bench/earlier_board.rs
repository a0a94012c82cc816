// Begin and deliver of an earlier revision, those that stand here, and plain Rust's. `bench/run.sh REVISION` builds and runs it.
#[allow(dead_code)]
mod plain_board;
#[allow(dead_code)]
mod scenes;
#[allow(dead_code)]
mod timing;

use scenes::{each_phase, ours, Begin, Deliver, Scene};

mod earlier {
    mod c {
        extern "C" {
            pub fn earlier_concur_board_begin(
                t: *mut u32, words: usize, member: u32, slot: u32, operation: u32, value: *const u32, room: usize,
            ) -> u32;
            pub fn earlier_concur_board_deliver(t: *mut u32, words: usize, member: u32, returned: *mut u32, room: usize) -> u32;
        }
    }

    pub fn begin(t: &mut [u32], member: u32, slot: u32, operation: u32, value: &[u32]) -> u32 {
        unsafe { c::earlier_concur_board_begin(t.as_mut_ptr(), t.len(), member, slot, operation, value.as_ptr(), value.len()) }
    }

    pub fn deliver(t: &mut [u32], member: u32, returned: &mut [u32]) -> u32 {
        unsafe { c::earlier_concur_board_deliver(t.as_mut_ptr(), t.len(), member, returned.as_mut_ptr(), returned.len()) }
    }
}

fn print(what: &str, times: Vec<f64>) {
    let (was, is, plain) = (times[0], times[1], times[2]);
    println!("{:<28} {:>9.1} {:>9.1} {:>9.1} {:>9.2} {:>9.2}", what, was, is, plain, is / was, is / plain);
}

fn main() {
    let begins: [Begin; 3] = [earlier::begin, ours::begin, plain_board::begin];
    let delivers: [Deliver; 3] = [earlier::deliver, ours::deliver, plain_board::by_value::deliver];
    println!("{:<28} {:>9} {:>9} {:>9} {:>9} {:>9}", "nanoseconds of a call", "earlier", "now", "plain", "/ earlier", "/ plain");
    for n in [2, 6, 12] {
        for slot in [1, n] {
            let what = if slot == n { "write" } else { "read" };
            print(&format!("begin of a {}, n = {}", what, n), Scene::begins(n, n, slot, begins));
            each_phase(n, n, slot, |what, scene| print(what, scene.deliveries(delivers, n)));
        }
    }
}
