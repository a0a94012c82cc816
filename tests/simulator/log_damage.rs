// Logs that are nearly good: a good one with a word changed, or with rows
// exchanged, left out, doubled or given another value.

use crate::log::{row_before, Row, ROW_WORDS};
use crate::rng::Rng;
use std::collections::BTreeSet;

/// The places of begin, acceptance and end in a row.
const POSITIONS: std::ops::Range<usize> = 11..14;

/// The row, those beside it, and those of its member before it and behind it.
fn rows_about(log: &[Row], at: usize) -> Vec<&Row> {
    let (above, behind) = (&log[..at], &log[at + 1..]);
    let member = log[at].member;
    let next = behind.iter().find(|row| row.member == member);
    [Some(&log[at]), above.last(), behind.first(), row_before(above, member), next].into_iter().flatten().collect()
}

/// Other words for one of a row's: just good or just bad there, or the ones
/// that stand about it, and one more and one less.
pub fn other_words(log: &[Row], n: u32, at: usize, place: usize) -> BTreeSet<u32> {
    let old = log[at].words()[place];
    let mut others: BTreeSet<u32> = (0..=n + 1).chain([3, u32::MAX, old ^ 0x8000_0000, old ^ 0x1_0000]).collect();
    let alike = if POSITIONS.contains(&place) { POSITIONS } else { place..place + 1 };
    for row in rows_about(log, at) {
        for word in &row.words()[alike.clone()] {
            others.extend([word.wrapping_sub(1), *word, word.wrapping_add(1)]);
        }
    }
    others.remove(&old);
    others
}

pub fn with_word(log: &[Row], at: usize, place: usize, word: u32) -> Vec<Row> {
    let mut words = log[at].words();
    words[place] = word;
    let mut changed = log.to_vec();
    changed[at] = Row::of_words(&words);
    changed
}

/// Each of the rows exchanged with each other, left out, doubled, and with
/// each other's value and zeros.
pub fn rearranged(log: &[Row], places: &[usize]) -> Vec<Vec<Row>> {
    let mut all: Vec<Vec<Row>> = Vec::new();
    let mut changed = |change: &dyn Fn(&mut Vec<Row>)| {
        let mut rows = log.to_vec();
        change(&mut rows);
        all.push(rows);
    };
    for &at in places {
        changed(&|rows| _ = rows.remove(at));
        changed(&|rows| rows.insert(at, log[at]));
        changed(&|rows| rows.push(log[at]));
        changed(&|rows| rows[at].value = [0; 8]);
        for &other in places.iter().filter(|other| **other != at) {
            changed(&|rows| rows.swap(at, other));
            changed(&|rows| rows[at].value = log[other].value);
        }
    }
    changed(&|rows| rows.reverse());
    all
}

/// One word, value or row changed at random.
pub fn damage(rng: &mut Rng, n: u32, log: &[Row]) -> Vec<Row> {
    let at = rng.below(log.len() as u64) as usize;
    if rng.once_in(6) {
        let other = rng.below(log.len() as u64) as usize;
        return rng.pick(&rearranged(log, &[at, other])).clone();
    }
    let place = if rng.once_in(2) { *rng.pick(&[11, 12, 13]) } else { rng.below(ROW_WORDS as u64) as usize };
    let words: Vec<u32> = other_words(log, n, at, place).into_iter().collect();
    with_word(log, at, place, *rng.pick(&words))
}
