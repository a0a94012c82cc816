// Messages to try on a reader or a check: every kind, whole, cut, longer and
// changed. Each is handed to `try_it` as bytes and the n that is asked about.

use crate::board::Submit;
use crate::messages::{self, Message};
use crate::random::random_record;
use crate::rng::Rng;

pub const LONGEST: usize = 1235; // a reply of twelve

pub fn random_message(rng: &mut Rng, n: u32) -> Message {
    let record = random_record(rng, n);
    match rng.below(4) {
        0 => Message::Submit(Submit { member: record.member, slot: record.slot, op_type: record.op_type, count: record.count }),
        1 => Message::Reply { newest: record, stored: random_record(rng, n) },
        2 => Message::Commit(record),
        _ => Message::Outcome(rng.between(1, 2)),
    }
}

/// The four kinds, each once.
pub fn one_of_each(rng: &mut Rng, n: u32) -> Vec<Message> {
    let mut all: Vec<Message> = Vec::new();
    while all.len() < 4 {
        let message = random_message(rng, n);
        if all.iter().all(|m| std::mem::discriminant(m) != std::mem::discriminant(&message)) {
            all.push(message);
        }
    }
    all
}

pub fn bytes_of(message: &Message, n: u32) -> Vec<u8> {
    let mut out = vec![0; LONGEST];
    let length = messages::write(message, n, &mut out).expect("a good message");
    out.truncate(length);
    out
}

fn mend_length(bytes: &mut Vec<u8>) {
    if bytes.len() >= 2 {
        let length = bytes.len() - 2;
        bytes[0] = (length / 256) as u8;
        bytes[1] = (length % 256) as u8;
    }
}

/// A good message asked about with other n, cut, made longer, and with each
/// byte changed.
fn changes_of(good: &[u8], n: u32, try_it: &mut impl FnMut(&[u8], u32)) {
    for other in [0, 1, 2, 3, 4, 5, 6, 7, 8, 9, 10, 11, 12, 13, 255, 256, 256 + n, u32::MAX] {
        try_it(good, other);
    }
    for length in 0..good.len() {
        try_it(&good[..length], n);
        let mut cut = good[..length].to_vec();
        mend_length(&mut cut);
        try_it(&cut, n);
    }
    for more in 1..6 {
        let mut longer = good.to_vec();
        longer.extend(vec![1; more]);
        try_it(&longer, n);
        mend_length(&mut longer);
        try_it(&longer, n);
    }
    for place in 0..good.len() {
        for byte in [0, 1, 2, 3, 4, 5, n as u8, n as u8 + 1, 12, 13, 127, 128, 255] {
            let mut changed = good.to_vec();
            changed[place] = byte;
            try_it(&changed, n);
        }
    }
}

pub fn fixed_messages(try_it: &mut impl FnMut(&[u8], u32)) {
    let mut rng = Rng::new(13);
    for n in 1..=12u32 {
        for message in one_of_each(&mut rng, n) {
            changes_of(&bytes_of(&message, n), n, try_it);
        }
        // Every length with every kind and the right length field.
        for length in 0..1300 {
            for kind in 0..=5 {
                let mut bytes = vec![1u8; length];
                mend_length(&mut bytes);
                if length > 3 {
                    bytes[3] = kind;
                }
                if length > 4 {
                    bytes[4] = n as u8;
                }
                try_it(&bytes, n);
            }
        }
    }
    // Longer than a length field can say.
    for length in [65535, 65536, 65537, 65538, 65539, 65547, 70000] {
        let mut bytes = vec![1u8; length];
        mend_length(&mut bytes);
        try_it(&bytes, 2);
        bytes[0] = 0;
        bytes[1] = 9;
        try_it(&bytes, 2);
    }
}

pub fn random_messages(seed: u64, try_it: &mut impl FnMut(&[u8], u32)) {
    let mut rng = Rng::new(seed);
    for _ in 0..40 {
        let n = rng.between(1, 12);
        let mut bytes = bytes_of(&random_message(&mut rng, n), n);
        if rng.once_in(5) {
            bytes = (0..rng.below(1300)).map(|_| rng.between(0, 4) as u8).collect();
        }
        if rng.once_in(3) {
            let length = rng.below(bytes.len() as u64 + 4) as usize;
            bytes.resize(length, 1);
        }
        if rng.once_in(2) {
            mend_length(&mut bytes);
        }
        for _ in 0..rng.below(3) {
            if !bytes.is_empty() {
                let reach = if rng.once_in(2) { bytes.len().min(12) } else { bytes.len() };
                let place = rng.below(reach as u64) as usize;
                bytes[place] = *rng.pick(&[0, 1, 2, 3, 4, 5, 12, 13, 128, 255]);
            }
        }
        let asked = if rng.once_in(6) { *rng.pick(&[0, 1, 2, 12, 13, u32::MAX]) } else { n };
        try_it(&bytes, asked);
    }
}
