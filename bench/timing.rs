// Timing several ways of doing the same thing against each other.
use std::hint::black_box;
use std::time::Instant;

const ROUNDS: usize = 60;
const ROUND_NANOSECONDS: u128 = 1_000_000;

/// Nanoseconds of one call: the proved code's and the plain Rust version's.
#[derive(Clone, Copy)]
pub struct Pair {
    pub ours: f64,
    pub plain: f64,
}

impl Pair {
    /// One of so many things that a call did.
    #[allow(dead_code)]
    pub fn each_of(self, count: u32) -> Pair {
        Pair { ours: self.ours / count as f64, plain: self.plain / count as f64 }
    }

    pub fn print(self, what: &str) {
        println!("{:<28} {:>9.1} {:>9.1} {:>8.2}", what, self.ours, self.plain, self.ours / self.plain);
    }
}

pub fn heading() {
    println!("{:<28} {:>9} {:>9} {:>8}", "nanoseconds of a call", "ours", "plain", "ratio");
}

/// Keeps the compiler from leaving a call out.
#[allow(dead_code)]
pub fn used(answer: u32) {
    black_box(answer);
}

/// So many calls, and the nanoseconds that they took.
pub type Round<'a> = Box<dyn FnMut(usize) -> u128 + 'a>;

pub fn round<'a>(mut f: impl FnMut() + 'a) -> Round<'a> {
    Box::new(move |calls| {
        let start = Instant::now();
        for _ in 0..calls {
            f();
        }
        start.elapsed().as_nanos()
    })
}

/// Enough calls that a round is long against the clock's own cost.
fn calls_of_a_round(round: &mut Round) -> usize {
    let mut calls = 1;
    while round(calls) < ROUND_NANOSECONDS {
        calls *= 2;
    }
    calls
}

/// The best round of each, in nanoseconds of a call. The rounds take turns, so that a slow moment of the machine falls on all.
pub fn best(mut ways: Vec<Round>) -> Vec<f64> {
    let calls: Vec<usize> = ways.iter_mut().map(calls_of_a_round).collect();
    let mut best = vec![f64::INFINITY; ways.len()];
    for _ in 0..ROUNDS {
        for (i, way) in ways.iter_mut().enumerate() {
            best[i] = best[i].min(way(calls[i]) as f64 / calls[i] as f64);
        }
    }
    best
}

#[allow(dead_code)]
pub fn compare(ours: impl FnMut(), plain: impl FnMut()) -> Pair {
    let times = best(vec![round(ours), round(plain)]);
    Pair { ours: times[0], plain: times[1] }
}
