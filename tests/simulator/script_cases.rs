// Lines of scripts, good and spoiled, and runs of them at random: what more
// than one of the programs tries.

use crate::reference::{Book, Call};
use crate::rng::Rng;

/// Numbers, and other pieces in their place.
pub const NUMBERS: [&str; 26] = [
    "0", "00", "01", "1", "2", "3", "10", "12", "13", "012", "4294967294", "4294967295", "4294967296", "4294967297", "99999999999",
    "18446744073709551616", "18446744073709551617", "340282366920938463463374607431768211457", "+1", "-1", "1.0", "0x1", "1e0", "", "a", "1_0",
];

/// Forms about a good line: with a byte too many or another, with a word too many or another.
pub fn spoiled(line: &str) -> Vec<(String, Vec<u8>)> {
    let mut out = by_bytes(line);
    out.extend(by_words(line));
    out
}

/// With odd bytes before, between (for each space) and after.
fn by_bytes(line: &str) -> Vec<(String, Vec<u8>)> {
    let mut out: Vec<(String, Vec<u8>)> = Vec::new();
    let odd: [(&str, &[u8]); 11] = [
        ("space", b" "), ("tab", b"\t"), ("cr", b"\r"), ("nul", b"\0"), ("vt", b"\x0b"), ("ff", b"\x0c"),
        ("nbsp", b"\xc2\xa0"), ("xff", b"\xff"), ("bom", b"\xef\xbb\xbf"), ("comma", b","), ("hash", b"#"),
    ];
    for (name, bytes) in odd {
        let mut before = bytes.to_vec();
        before.extend_from_slice(line.as_bytes());
        out.push((format!("{}_before", name), before));
        let mut after = line.as_bytes().to_vec();
        after.extend_from_slice(bytes);
        out.push((format!("{}_after", name), after));
        for (place, byte) in line.bytes().enumerate() {
            if byte != b' ' {
                continue;
            }
            let mut instead = line.as_bytes()[..place].to_vec();
            instead.extend_from_slice(bytes);
            instead.extend_from_slice(&line.as_bytes()[place + 1..]);
            if instead != line.as_bytes() {
                out.push((format!("{}_instead", name), instead));
            }
            let mut beside = line.as_bytes()[..place + 1].to_vec();
            beside.extend_from_slice(bytes);
            beside.extend_from_slice(&line.as_bytes()[place + 1..]);
            out.push((format!("{}_beside", name), beside));
        }
    }
    out
}

fn by_words(line: &str) -> Vec<(String, Vec<u8>)> {
    let mut out: Vec<(String, Vec<u8>)> = Vec::new();
    let pieces: Vec<&str> = line.split(' ').collect();
    out.push(("upper".into(), line.to_uppercase().into_bytes()));
    out.push(("capital".into(), format!("{}{}", line[..1].to_uppercase(), &line[1..]).into_bytes()));
    out.push(("word_only".into(), pieces[0].as_bytes().to_vec()));
    out.push(("word_and_space".into(), format!("{} ", pieces[0]).into_bytes()));
    out.push(("short_word".into(), line[1..].as_bytes().to_vec()));
    out.push(("cut_word".into(), line.replacen(pieces[0], &pieces[0][..pieces[0].len() - 1], 1).into_bytes()));
    out.push(("long_word".into(), line.replacen(pieces[0], &format!("{}s", pieces[0]), 1).into_bytes()));
    out.push(("one_more".into(), format!("{} 1", line).into_bytes()));
    out.push(("two_more".into(), format!("{} 1 1", line).into_bytes()));
    out.push(("no_space".into(), line.replace(' ', "").into_bytes()));
    out.push(("numbers_only".into(), pieces[1..].join(" ").into_bytes()));
    out.push(("empty".into(), Vec::new()));
    out
}

pub fn line_of(call: &Call) -> String {
    match call {
        Call::Begin { member, slot, op_type, sheet } => {
            if *op_type == 2 {
                format!("write {} {}\n", member, sheet[7])
            } else {
                format!("read {} {}\n", member, slot)
            }
        }
        Call::Deliver { member } => format!("deliver {}\n", member),
        Call::Crash { member } => format!("crash {}\n", member),
    }
}

pub fn read(member: u32, slot: u32) -> Call {
    Call::Begin { member, slot, op_type: 1, sheet: [0; 8] }
}

pub fn write(member: u32, value: u32) -> Call {
    Call::Begin { member, slot: member, op_type: 2, sheet: [0, 0, 0, 0, 0, 0, 0, value] }
}

/// A read, or a write where the slot is the member's own.
pub fn begin(member: u32, slot: u32, value: u32) -> Call {
    if member == slot {
        write(member, value)
    } else {
        read(member, slot)
    }
}

/// The same, but that the owner reads as often as it writes.
pub fn any_begin(rng: &mut Rng, member: u32, slot: u32) -> Call {
    if rng.once_in(2) {
        read(member, slot)
    } else {
        begin(member, slot, rng.word())
    }
}

pub fn deliver(member: u32) -> Call {
    Call::Deliver { member }
}

/// Of a begin.
pub fn member_and_slot(begin: &Call) -> (u32, u32) {
    match begin {
        Call::Begin { member, slot, .. } => (*member, *slot),
        _ => panic!("not a begin"),
    }
}

/// An operation with all its delivers, nobody in between.
pub fn whole(begin: Call) -> Vec<Call> {
    let (member, _) = member_and_slot(&begin);
    let mut calls = vec![begin];
    calls.extend(vec![deliver(member); 4]);
    calls
}

/// So many operations, each accepted and told.
pub fn times(begin: Call, times: usize) -> Vec<Call> {
    whole(begin).repeat(times)
}

pub fn script_of(n: u32, calls: &[Call]) -> Vec<u8> {
    let mut text = format!("members {}\n", n);
    for call in calls {
        text += &line_of(call);
    }
    text.into_bytes()
}

pub fn bad_line(rng: &mut Rng) -> Vec<u8> {
    let good = match rng.below(4) {
        0 => format!("write {} {}", rng.between(1, 4), rng.word()),
        1 => format!("read {} {}", rng.between(1, 4), rng.between(1, 4)),
        2 => format!("deliver {}", rng.between(1, 12)),
        _ => format!("crash {}", rng.between(1, 12)),
    };
    match rng.below(6) {
        0 => {
            let choices = spoiled(&good);
            rng.pick(&choices).1.clone()
        }
        1 => {
            // Any bytes but the line feed.
            (0..rng.below(20)).map(|_| rng.word() as u8).filter(|b| *b != b'\n').collect()
        }
        2 => {
            // One byte changed, dropped or doubled.
            let mut line = good.into_bytes();
            let place = rng.below(line.len() as u64) as usize;
            match rng.below(3) {
                0 => line[place] = *rng.pick(b" \t\r\x000123456789abdeilrstvw"),
                1 => {
                    line.remove(place);
                }
                _ => {
                    let byte = line[place];
                    line.insert(place, byte);
                }
            }
            line
        }
        3 => format!("deliver {}", rng.pick(&NUMBERS)).into_bytes(),
        4 => format!("write {} {}", rng.between(0, 3), rng.pick(&NUMBERS)).into_bytes(),
        _ => format!("read {} {}", rng.pick(&NUMBERS), rng.pick(&NUMBERS)).into_bytes(),
    }
}

/// Steps that every board refuses, of so many bytes in all, 10 at least.
pub fn filling(bytes: usize) -> Vec<u8> {
    let last = 10 + bytes % 10;
    let lines = "deliver 0\n".repeat((bytes - last) / 10);
    format!("{}write 0 {}\n", lines, "1".repeat(last - "write 0 \n".len())).into_bytes()
}

/// How a run at random goes.
pub struct Manner {
    pub steps: u32,
    pub busy: u32, // so many take part, the highest members
    pub slots: u32, // operations go to so many slots, from the lowest of these members' on
    pub crash_once_in: u64,
    pub bad_once_in: u64,
    pub astray_once_in: u64, // out of turn or out of range
}

/// Clashes, and few crashes; every line is a good one.
pub const USUAL: Manner =
    Manner { steps: 100, busy: u32::MAX, slots: 2, crash_once_in: 1_000, bad_once_in: u64::MAX, astray_once_in: 30 };

/// A run that the book follows, so that it goes forward; bad lines between.
/// A bad line may by chance be a good one; the book is then a little behind,
/// which does no harm.
pub fn random_script(rng: &mut Rng, n: u32, manner: &Manner) -> Vec<u8> {
    let mut text = format!("members {}\n", n).into_bytes();
    let mut book = Book::new(n, u32::MAX);
    let lowest = n - manner.busy.min(n) + 1;
    for _ in 0..manner.steps {
        if rng.once_in(manner.bad_once_in) {
            text.extend(bad_line(rng));
            text.push(b'\n');
            continue;
        }
        let member = rng.between(lowest, n);
        let call = if rng.once_in(manner.crash_once_in) {
            Call::Crash { member }
        } else if rng.once_in(manner.astray_once_in) {
            astray(rng, n)
        } else if book.phase(member) == 0 {
            let slot = rng.between(lowest, (lowest + manner.slots - 1).min(n));
            any_begin(rng, member, slot)
        } else {
            deliver(member)
        };
        book.call(&call);
        text.extend_from_slice(line_of(&call).as_bytes());
    }
    text
}

/// Out of turn or out of range.
fn astray(rng: &mut Rng, n: u32) -> Call {
    let (other, slot) = (rng.between(0, n + 1), rng.between(0, n + 1));
    if rng.once_in(2) {
        deliver(other)
    } else {
        any_begin(rng, other, slot)
    }
}

/// A run of any size, on n members or on a number that no board has; most
/// of them with bad lines; some lack their last line feed, some are cut anywhere.
pub fn any_script(rng: &mut Rng) -> (u32, Vec<u8>) {
    let n = if rng.once_in(15) { *rng.pick(&[0, 13]) } else { rng.between(1, 12) };
    let manner = Manner {
        steps: *rng.pick(&[5, 40, 200, 200, 1000, 4000]),
        slots: *rng.pick(&[1, 2, 12, 12]),
        crash_once_in: *rng.pick(&[40, 300, 1_000_000]),
        bad_once_in: *rng.pick(&[3, 20, 1_000_000]),
        ..USUAL
    };
    let drive = n.max(1);
    let mut text = random_script(rng, drive, &manner);
    if n != drive {
        let rest = text.iter().position(|b| *b == b'\n').unwrap();
        text.splice(..rest, format!("members {}", n).into_bytes());
    }
    if rng.once_in(3) {
        text.pop();
    }
    if rng.once_in(10) {
        let cut = rng.below(text.len() as u64 + 1) as usize;
        text.truncate(cut);
    }
    (n, text)
}
