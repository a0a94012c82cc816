// Drives a library's message reader, message writer, member half and host half
// beside the simulator's, and compares every number, word, byte and record.
// Usage: halves SECONDS [SEED]
#![allow(dead_code)]

mod arguments;
mod begin_cases;
mod board;
mod both;
mod calls;
mod calls_lib;
mod calls_sim;
mod flat;
mod grounds;
mod guarded;
mod half_messages;
mod half_walks;
mod host_cases;
mod length_cases;
mod member_cases;
mod message_cases;
mod messages;
mod noise;
mod random;
mod replies;
mod rng;
mod tally;

use std::time::Instant;

const LEAST_ROUNDS: u64 = 300;

fn main() {
    let (limit, seed) = arguments::seconds_and_seed("halves");
    let start = Instant::now();
    let mut both = both::Both::default();

    length_cases::fixed(&mut both);
    member_cases::fixed(&mut both);
    host_cases::fixed(&mut both);
    half_messages::fixed_reading(&mut both);
    half_messages::fixed_writing(&mut both);
    let fixed = start.elapsed();
    // The random part runs in the time that is left.
    let parts = [half_walks::walk, member_cases::random_round, host_cases::random_round, half_messages::random_round, length_cases::random_round];
    let mut seeds = rng::Rng::new(seed);
    let mut rounds = 0;
    while rounds < LEAST_ROUNDS || start.elapsed() < limit {
        for part in parts {
            part(seeds.next(), &mut both);
        }
        rounds += 1;
    }
    println!("seed {} rounds {} fixed part {:.1} s, all {:.1} s", seed, rounds, fixed.as_secs_f64(), start.elapsed().as_secs_f64());
    tally::report(&both.cases, &both.walks);
    println!("all agreed");
}
