// Logs of the simulator's own runs, all of which must hold: short ones after
// every call, and long ones about the most rows that a log may have.

use crate::board::{block_start, phase_of, Kind, ABORTED_SENT, KINDS, READ, WRITE};
use crate::grounds::Grounds;
use crate::log::{last_write, row_before, words_of, Logged, Row, MOST_ROWS};
use crate::log_vendor::stretched;
use crate::random_calls::{random_call, Style};
use crate::reference::Call;
use crate::rng::Rng;
use crate::Both;

/// The lengths at which a long log is asked about, beside the most rows and those about it.
const LENGTHS: [usize; 9] = [63, 64, 127, 255, 256, 511, 512, 513, 1_023];

/// How the kinds' boards are driven, each n as often; gives the long logs.
pub fn fixed(rng: &mut Rng, both: &mut Both, seen: &mut Grounds) -> Vec<(u32, Vec<Row>)> {
    let mut long = Vec::new();
    for kind in KINDS {
        for n in 1..=kind.most {
            for turn in 0..24 {
                let style = Style {
                    slots: if turn % 3 == 0 { 1 } else { n },
                    crash_once_in: [25, 200, u64::MAX][turn % 3],
                    bad_once_in: if turn % 2 == 0 { 8 } else { 60 },
                    steps: 20 + 15 * turn as u32,
                };
                let log = short_run(rng, kind, n, &style, both, seen);
                every_n(rng, n, &log, both);
            }
            let log = long_run(rng, kind, n, both, seen);
            every_n(rng, n, &log, both);
            long.push((n, log));
        }
    }
    long
}

/// A log holds with more members too, and with its positions further apart.
fn every_n(rng: &mut Rng, n: u32, log: &[Row], both: &mut Both) {
    for more in n..=12 {
        both.must("an own log with more members", more, log, true);
    }
    for _ in 0..3 {
        both.must("an own log, further apart", n, &stretched(rng, log), true);
    }
}

/// A run's log, asked about at its opening and wherever it changes.
pub fn short_run(rng: &mut Rng, kind: Kind, n: u32, style: &Style, both: &mut Both, seen: &mut Grounds) -> Vec<Row> {
    let mut run = Logged::new(kind, n);
    both.must("the log of an opening", n, &run.log, true);
    for _ in 0..style.steps {
        let call = random_call(rng, n, style, &run.table);
        let before = run.log.clone();
        count_call(&mut run, &call, seen);
        if run.log != before {
            both.must("an own log", n, &run.log, true);
        }
    }
    count_rows(&run.log, seen);
    run.log
}

/// A run up to one row more than a log may have; gives its log before that.
fn long_run(rng: &mut Rng, kind: Kind, n: u32, both: &mut Both, seen: &mut Grounds) -> Vec<Row> {
    let style = Style { slots: n, crash_once_in: 2_000, bad_once_in: 40, steps: 0 };
    let mut run = Logged::new(kind, n);
    let mut most = Vec::new();
    while run.log.len() <= MOST_ROWS {
        let before = run.log.len();
        let call = next_call(rng, n, &style, &run.table);
        count_call(&mut run, &call, seen);
        let rows = run.log.len();
        if rows == MOST_ROWS || (rows > before && LENGTHS.contains(&rows)) {
            both.must("a long own log", n, &run.log, true);
            most.clone_from(&run.log);
        }
    }
    count_rows(&most, seen);
    both.must_refuse("a row too many", n, &words_of(&run.log), 34);
    both.must("all rows but the last", n, &run.log[..MOST_ROWS], true);
    most
}

/// The last member left does not crash, so that the log grows on.
fn next_call(rng: &mut Rng, n: u32, style: &Style, table: &[u32]) -> Call {
    let crashed = (1..=n).filter(|member| table[block_start(n, *member) + 1] == 1).count() as u32;
    match random_call(rng, n, style, table) {
        Call::Crash { member } if crashed + 1 == n => Call::Deliver { member },
        call => call,
    }
}

// ---------------------------------------------------------------- what came up

fn count_call(run: &mut Logged, call: &Call, seen: &mut Grounds) {
    let number = run.call(call);
    let aborted = |member: u32| number == 0 && phase_of(&run.table, member) == ABORTED_SENT;
    seen.see("a refused call", number != 0);
    seen.see("a crash", number == 0 && matches!(call, Call::Crash { .. }));
    seen.see("an aborted operation", matches!(call, Call::Deliver { member } if aborted(*member)));
}

/// What the rows of a log show.
fn count_rows(log: &[Row], seen: &mut Grounds) {
    seen.see("no row", log.is_empty());
    seen.see("1,024 rows", log.len() == MOST_ROWS);
    for (at, row) in log.iter().enumerate() {
        let above = &log[..at];
        seen.see("a write without an end", row.op_type == WRITE && !row.ended());
        seen.see("a read without an end", row.op_type == READ && !row.ended());
        seen.see("a member's next row", row_before(above, row.member).is_some());
        seen.see("a row above that ends later", row.ended() && above.iter().any(|other| other.end > row.end));
        seen.see("a row above that began later", above.iter().any(|other| other.begin > row.begin));
        if row.op_type == READ && row.ended() {
            count_read(above, row, seen);
        }
    }
}

fn count_read(above: &[Row], read: &Row, seen: &mut Grounds) {
    seen.see("an own read", read.slot == read.member);
    seen.see("a read of another's slot", read.slot != read.member);
    let Some(write) = last_write(above, read.slot) else {
        return seen.count("a read of an unwritten slot");
    };
    let writes = above.iter().filter(|row| row.op_type == WRITE && row.slot == read.slot).count();
    seen.see("a read behind two writes", writes > 1);
    seen.see("a read behind a write without an end", !write.ended());
    seen.see("a read behind a write that ends later", write.end > read.end);
    seen.see("a read that began before the write was accepted", read.begin < write.acceptance);
}
