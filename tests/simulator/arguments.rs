// The arguments SECONDS [SEED] of a program.

use std::time::Duration;

pub fn seconds_and_seed(program: &str) -> (Duration, u64) {
    let args: Vec<String> = std::env::args().collect();
    if args.len() < 2 {
        println!("usage: {} SECONDS [SEED]", program);
        std::process::exit(2);
    }
    let limit = Duration::from_secs_f64(args[1].parse().expect("seconds"));
    let seed = if args.len() > 2 { args[2].parse().expect("seed") } else { 7 };
    (limit, seed)
}
