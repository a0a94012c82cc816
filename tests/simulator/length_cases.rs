// Lengths that are not the named ones, with a good n and with others.

use crate::board::{AUCTION, COMMON};
use crate::both::Both;
use crate::calls::{Call, Lent, CALLS};
use crate::message_cases::{bytes_of, random_message};
use crate::random::*;
use crate::rng::Rng;

const SOME_N: [u32; 19] = [0, 1, 2, 3, 4, 5, 6, 7, 8, 9, 10, 11, 12, 13, 255, 256, 260, 268, u32::MAX];

/// The call at this place in NAMES.
fn any_call(rng: &mut Rng, place: usize, n: u32) -> Call {
    let (member, slot) = (any_number(rng, n), any_number(rng, n));
    let op_type = allowed_type(rng, member, slot);
    match place {
        0 => Call::Read { n },
        1 => Call::Write { n },
        2 => Call::Begin { kind: COMMON, n, member, slot, op_type },
        3 => Call::Reply { n, member, seals: rng.between(0, 4) },
        4 => Call::Outcome { n, member, outcome: rng.between(0, 3) },
        5 => Call::Crash { n, member },
        6 => Call::Submit { n, member, slot, op_type, count: rng.word() },
        7 => Call::Commit { n },
        _ => Call::Begin { kind: AUCTION, n, member, slot, op_type },
    }
}

/// What a board of `right` members would lend for this call.
fn lent_for(rng: &mut Rng, call: &Call, right: u32) -> Lent {
    let mut lent = Lent::default();
    let message = random_message(rng, right);
    match call {
        Call::Read { .. } => lent.bytes = bytes_of(&message, right),
        Call::Write { .. } => lent.bytes = vec![0xC3; 1240],
        Call::Submit { .. } | Call::Commit { .. } => lent.words = any_entries(rng, right),
        _ => {
            let member = rng.between(1, right);
            lent.words = any_block(rng, right, member);
        }
    }
    lent.given = match call {
        Call::Write { .. } => crate::flat::message_to_fields(&message),
        _ => (0..call.lengths().0).map(|_| rng.between(1, 2)).collect(),
    };
    lent.results = vec![0; call.lengths().1];
    lent
}

/// The right length, one less, one more, none, and twice it; just none for a part that the call has not.
fn about(right: usize) -> Vec<usize> {
    if right == 0 {
        return vec![0];
    }
    vec![right, right - 1, right + 1, 0, 2 * right]
}

pub fn fixed(both: &mut Both) {
    let mut rng = Rng::new(61);
    for n in SOME_N {
        for place in 0..CALLS {
            for right in 1..=12 {
                let call = any_call(&mut rng, place, n);
                let lent = lent_for(&mut rng, &call, right);
                let whole = lent.words.len();
                // The block's or the entries' length, with the others right.
                for words in about(whole) {
                    let mut other = lent.clone();
                    other.words.resize(words, 1);
                    both.ask(&call, &mut other);
                }
                // The others' lengths, with a block's or entries' for n or for another board.
                if right != n && right != 1 {
                    continue;
                }
                for given in about(lent.given.len()) {
                    for results in about(lent.results.len()) {
                        let mut other = lent.clone();
                        other.given.resize(given, 1);
                        other.results.resize(results, 0);
                        both.ask(&call, &mut other);
                    }
                }
            }
        }
    }
}

pub fn random_round(seed: u64, both: &mut Both) {
    let mut rng = Rng::new(seed);
    for place in 0..CALLS {
        let right = rng.between(1, 12);
        let n = if rng.once_in(6) { *rng.pick(&SOME_N) } else { right };
        let call = any_call(&mut rng, place, n);
        let mut lent = lent_for(&mut rng, &call, right);
        match rng.below(4) {
            0 => lent.words.resize(*rng.pick(&about(lent.words.len())), 1),
            1 => lent.given.resize(*rng.pick(&about(lent.given.len())), 1),
            2 => lent.results.resize(*rng.pick(&about(lent.results.len())), 0),
            _ => {}
        }
        both.ask(&call, &mut lent);
    }
}
