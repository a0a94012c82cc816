// Reader and writer: what is asked of them.

use crate::both::Both;
use crate::flat::*;
use crate::message_cases::{bytes_of, fixed_messages, one_of_each, random_message, random_messages, LONGEST};
use crate::noise::noisy_fields;
use crate::random::{any_number, any_type};
use crate::rng::Rng;

const BAD_N: [u32; 6] = [0, 13, 14, 255, 256, u32::MAX];

/// Where the numbers stand that 15 may refuse, whether the kind uses them or not.
const JUDGED: [usize; 11] = [0, 1, 2, 3, 5, NEWEST, NEWEST + 1, NEWEST + 2, STORED, STORED + 1, STORED + 2];

pub fn fixed_reading(both: &mut Both) {
    fixed_messages(&mut |bytes, n| {
        both.read(bytes, n);
    });
}

pub fn fixed_writing(both: &mut Both) {
    let mut rng = Rng::new(21);
    for n in 1..=12 {
        for message in one_of_each(&mut rng, n) {
            let length = bytes_of(&message, n).len();
            let fields = noisy_fields(&mut rng, &message, n);
            for bad in BAD_N {
                for out_length in [0, length, LONGEST] {
                    both.write(&fields, bad, out_length);
                }
            }
            // Also as another board would write it.
            for other in 1..=12 {
                both.write(&fields, other, LONGEST);
            }
            for out_length in (0..length.min(70)).chain(length - 5..length + 6) {
                both.write(&fields, n, out_length);
            }
            // One number changed, with outputs that would be 16.
            for place in JUDGED {
                for word in [0, 1, 2, 3, 4, 5, n, n + 1, 12, 13, 256, 257, 258, 256 + n, 0x0100_0001, 0x8000_0002, u32::MAX] {
                    let mut changed = fields.clone();
                    changed[place] = word;
                    both.write(&changed, n, LONGEST);
                    both.write(&changed, n, 4);
                    both.write(&changed, n, length);
                }
            }
        }
    }
}

/// Writes, reads what was written, reads and writes damaged ones.
pub fn random_round(seed: u64, both: &mut Both) {
    let mut rng = Rng::new(seed);
    random_messages(rng.next(), &mut |bytes, n| {
        both.read(bytes, n);
    });
    for _ in 0..40 {
        let n = rng.between(1, 12);
        let message = random_message(&mut rng, n);
        let length = bytes_of(&message, n).len();
        let mut fields = noisy_fields(&mut rng, &message, n);
        for _ in 0..rng.below(3) {
            let place = *rng.pick(&JUDGED);
            fields[place] = if place % RECORD == NEWEST + 2 || place == 3 { any_type(&mut rng) } else { any_number(&mut rng, n) };
        }
        let asked = if rng.once_in(8) { any_number(&mut rng, n) } else { n };
        let out_length = if rng.once_in(3) { rng.below(2 * length as u64) as usize } else { LONGEST + 5 };
        let (answer, out, written) = both.write(&fields, asked, out_length);
        if answer == 0 {
            let (answer, again) = both.read(&out[..written], asked);
            let (second, out_again, _) = both.write(&again, asked, written);
            if answer != 0 || second != 0 || out_again[..] != out[..written] {
                println!("DIFFERENCE: {:?} is not read as it was written for n {}", fields, asked);
                std::process::exit(1);
            }
        }
    }
}
