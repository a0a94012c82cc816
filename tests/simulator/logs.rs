// Drives a library's check of a log beside the simulator, and compares the
// answer and the verdict of each call.
// Usage: logs SECONDS [SEED]
#![allow(dead_code)]

mod arguments;
mod board;
mod grounds;
mod guarded;
mod log;
mod log_cases;
mod log_damage;
mod log_runs;
mod log_vendor;
mod random;
mod random_calls;
mod reference;
mod rng;

use board::{KINDS, n_is_good};
use grounds::Grounds;
use guarded::{Guarded, GUARD, UNTOUCHED};
use log::{failing, words_of, Row, CLAUSES, MOST_ROWS, ROW_WORDS};
use log_damage::{damage, other_words, rearranged, with_word};
use log_vendor::{stretched, vendor_log};
use random_calls::Style;
use rng::Rng;
use std::collections::BTreeMap;
use std::time::Instant;

const LEAST_ROUNDS: u64 = 1_500;

extern "C" {
    fn concur_log_check(log: *const u32, words: usize, n: u32, verdict: *mut u32, verdict_words: usize) -> u32;
}

/// The parts of the work, and whether a log may fail in it.
const PARTS: [(&str, bool); 5] = [("refusals", true), ("by hand", true), ("own runs", false), ("damaged", true), ("at random", true)];

/// What came up in a part.
#[derive(Default)]
struct Tally {
    calls: u64,
    words: u64,
    verdicts: [u64; 2], // no and yes
    alone: Grounds,     // the clause that failed, where it was the only one
    refused: BTreeMap<(u32, usize), u64>, // by the number, and by which grounds held
}

impl Tally {
    fn count(&mut self, n: u32, log: &[u32], verdict: &[u32], answer: u32) {
        self.calls += 1;
        self.words += log.len() as u64;
        if answer != 0 {
            let many = log.len() / ROW_WORDS > MOST_ROWS;
            let grounds = [!n_is_good(n), log.len() % ROW_WORDS != 0, verdict.len() != 1, many];
            let held: usize = (0..4).map(|ground| (grounds[ground] as usize) << ground).sum();
            *self.refused.entry((answer, held)).or_default() += 1;
            return;
        }
        self.verdicts[verdict[0] as usize] += 1;
        if let [clause] = failing(n, &log::rows_of(log))[..] {
            self.alone.count(clause.name());
        }
    }

    fn refused(&self, number: u32) -> u64 {
        self.refused.iter().filter(|(key, _)| key.0 == number).map(|(_, times)| times).sum()
    }

    /// Which of the grounds, each alone and with each other, never held.
    fn never_held(&self) -> Vec<String> {
        let held = |grounds: &usize| self.refused.keys().any(|key| key.1 == *grounds);
        (1..16).filter(|grounds| !held(grounds)).map(|grounds| format!("grounds {:04b}", grounds)).collect()
    }
}

fn fail(what: &str) -> ! {
    println!("DIFFERENCE: {}", what);
    std::process::exit(1);
}

/// The library beside the simulator, in one part of the work.
pub struct Both {
    part: usize,
    tallies: [Tally; PARTS.len()],
}

impl Both {
    /// The call on both. Gives the number, and the words of the verdict after it.
    fn ask(&mut self, what: &str, n: u32, log: &[u32], verdict_words: usize) -> (u32, Vec<u32>) {
        let mut lent = Guarded::new(log, GUARD);
        let mut verdict = Guarded::new(&vec![UNTOUCHED; verdict_words], GUARD);
        let mut by_simulator = vec![UNTOUCHED; verdict_words];
        let (words, place) = (lent.inside(), verdict.inside());
        let answer = unsafe { concur_log_check(words.as_ptr(), words.len(), n, place.as_mut_ptr(), place.len()) };
        let expected = log::check(log, n, &mut by_simulator);

        let story = || format!("{}, {}, n {}, {} words {:?}", PARTS[self.part].0, what, n, log.len(), &log[..log.len().min(12 * ROW_WORDS)]);
        if answer != expected {
            fail(&format!("library answers {}, simulator {}: {}", answer, expected, story()));
        }
        if verdict.inside() != &by_simulator[..] {
            fail(&format!("answer {}, verdict of the library {:?}, simulator {:?}: {}", answer, verdict.inside(), by_simulator, story()));
        }
        if lent.inside() != log || !lent.intact() || !verdict.intact() {
            fail(&format!("wrote to the log, or outside what was lent: {}", story()));
        }
        self.tallies[self.part].count(n, log, &by_simulator, answer);
        (answer, by_simulator)
    }

    /// The verdict on a log that is not refused.
    fn verdict(&mut self, what: &str, n: u32, rows: &[Row]) -> bool {
        let (answer, verdict) = self.ask(what, n, &words_of(rows), 1);
        if answer != 0 {
            fail(&format!("{}, {} rows: answered {}", what, rows.len(), answer));
        }
        verdict[0] == 1
    }

    /// The same where the verdict is known from elsewhere.
    pub fn must(&mut self, what: &str, n: u32, rows: &[Row], expected: bool) {
        if self.verdict(what, n, rows) != expected {
            fail(&format!("{}, n {}: both give another verdict than {} to {:?}", what, n, expected, rows));
        }
    }

    pub fn must_refuse(&mut self, what: &str, n: u32, log: &[u32], number: u32) {
        let answer = self.ask(what, n, log, 1).0;
        if answer != number {
            fail(&format!("{}, n {}: both answer {}, expected {}", what, n, answer, number));
        }
    }
}

// ---------------------------------------------------------------- the parts

/// What the log holds is of no account: words that nobody wrote, zeros, or good rows.
fn refusals(rng: &mut Rng, both: &mut Both) {
    let good = words_of(&vendor_log(rng, 12, MOST_ROWS));
    let contents = |length: usize| -> [Vec<u32>; 3] { [vec![UNTOUCHED; length], vec![0; length], good.iter().copied().cycle().take(length).collect()] };
    for (n, words, verdict_words, number) in log_cases::REFUSALS {
        for log in contents(words) {
            let answer = both.ask("by hand", n, &log, verdict_words).0;
            if answer != number {
                fail(&format!("n {}, {} words, {} for the verdict: both answer {}, expected {}", n, words, verdict_words, answer, number));
            }
        }
    }
    let whole = MOST_ROWS * ROW_WORDS;
    let about = [0, 14, 28, 140, whole - 14, whole, whole + 14, whole + 28, 2 * whole];
    for words in about.into_iter().flat_map(|length: usize| [length.saturating_sub(1), length, length + 1, length + 7]) {
        for n in [0, 1, 2, 6, 11, 12, 13, 14, 256, 268, 0x8000_0001, u32::MAX] {
            for verdict_words in [0, 1, 2, 3, 14] {
                contents(words).iter().for_each(|log| drop(both.ask("each ground", n, log, verdict_words)));
            }
        }
    }
}

fn by_hand(both: &mut Both) {
    for case in log_cases::cases() {
        both.must(case.name, case.n, &case.log, case.fails.is_none());
    }
}

/// Each word of these rows, and the rows themselves.
fn damaged(n: u32, log: &[Row], places: &[usize], both: &mut Both) {
    for &at in places {
        for place in 0..ROW_WORDS {
            for word in other_words(log, n, at, place) {
                both.verdict("a word changed", n, &with_word(log, at, place, word));
            }
        }
    }
    for rows in rearranged(log, places).iter().filter(|rows| rows.len() <= MOST_ROWS) {
        both.verdict("rows changed", n, rows);
    }
    for other in (1..=12).filter(|other| *other != n) {
        both.verdict("another n", other, log);
    }
}

fn damaged_logs(rng: &mut Rng, long: &[(u32, Vec<Row>)], both: &mut Both) {
    for (n, log) in long {
        for start in [0, 9] {
            let end = start + rng.between(6, 16) as usize;
            damaged(*n, &log[..end], &(start..end).collect::<Vec<_>>(), both);
        }
    }
    for (n, log) in long.iter().filter(|(n, _)| [1, 12].contains(n)) {
        let middle = rng.between(2, 1_021) as usize;
        damaged(*n, log, &[0, middle, MOST_ROWS - 1], both);
    }
}

/// A log that holds, of a run or of no board of ours, and the same with up to
/// three faults.
fn random_round(seed: u64, both: &mut Both) {
    let mut rng = Rng::new(seed);
    let kind = *rng.pick(&KINDS);
    let n = rng.between(1, kind.most);
    let rows = *rng.pick(&[1, 3, 8, 20, 20, 60, 60, 1_030]);
    let mut log = if rng.once_in(2) {
        let style = Style { slots: n, crash_once_in: 100, bad_once_in: 30, steps: 6 * rows as u32 };
        log_runs::short_run(&mut rng, kind, n, &style, both, &mut Grounds::default())
    } else {
        vendor_log(&mut rng, n, rows)
    };
    if log.len() > MOST_ROWS {
        both.must_refuse("too many rows", n, &words_of(&log), 34);
        log.truncate(MOST_ROWS);
    }
    if rng.once_in(2) {
        log = stretched(&mut rng, &log);
    }
    both.must("nothing changed", n, &log, true);
    for _ in 0..if log.is_empty() { 0 } else { 12 } {
        let mut rows = damage(&mut rng, n, &log);
        for _ in 0..rng.below(3).min(rows.len() as u64) {
            rows = damage(&mut rng, n, &rows);
        }
        rows.truncate(MOST_ROWS);
        both.verdict("up to three faults", n, &rows);
    }
}

fn main() {
    let (limit, seed) = arguments::seconds_and_seed("logs");
    let start = Instant::now();
    let mut both = Both { part: 0, tallies: Default::default() };
    let mut seen = Grounds::default();
    let mut rng = Rng::new(seed);

    refusals(&mut rng, &mut both);
    both.part = 1;
    by_hand(&mut both);
    both.part = 2;
    let long = log_runs::fixed(&mut rng, &mut both, &mut seen);
    both.part = 3;
    damaged_logs(&mut rng, &long, &mut both);
    both.part = 4;
    let fixed = start.elapsed();
    // The random part runs in the time that is left.
    let mut rounds = 0;
    while rounds < LEAST_ROUNDS || start.elapsed() < limit {
        random_round(rng.next(), &mut both);
        rounds += 1;
    }
    println!("seed {} rounds {} fixed part {:.1} s, all {:.1} s", seed, rounds, fixed.as_secs_f64(), start.elapsed().as_secs_f64());
    report(&both, &seen);
    println!("all agreed");
}

/// Prints what came up. Each verdict, each ground and each clause has to.
fn report(both: &Both, seen: &Grounds) {
    let mut missing = seen.missing("own runs", &[]);
    for ((part, may_fail), tally) in PARTS.iter().zip(&both.tallies) {
        let Tally { calls, verdicts, .. } = tally;
        println!("{}: calls {} yes {} no {}, refused 1 {} 2 {} 34 {}", part, calls, verdicts[1], verdicts[0], tally.refused(1), tally.refused(2), tally.refused(34));
        if *may_fail && *part != "refusals" {
            missing.extend(tally.alone.missing(part, &CLAUSES.map(|clause| clause.name())));
        }
        if (verdicts[0] > 0) != *may_fail || verdicts[1] == 0 {
            missing.push(format!("the verdicts {}", part));
        }
    }
    missing.extend(both.tallies[0].never_held());
    let total = |of: fn(&Tally) -> u64| -> u64 { both.tallies.iter().map(of).sum() };
    println!(
        "logs {} words {}: yes {} no {} refused {}",
        total(|tally| tally.calls), total(|tally| tally.words), total(|tally| tally.verdicts[1]), total(|tally| tally.verdicts[0]),
        total(|tally| tally.refused(1) + tally.refused(2) + tally.refused(34))
    );
    if !missing.is_empty() {
        fail(&format!("never came up: {}", missing.join(", ")));
    }
}
