// Calls at random on a board, as more than one of the programs makes them.

use crate::board::{phase_of, IDLE};
use crate::random::{allowed_type, random_sheet};
use crate::reference::Call;
use crate::rng::Rng;

/// How a run is driven.
pub struct Style {
    pub slots: u32, // operations go to the slots 1 to this
    pub crash_once_in: u64,
    pub bad_once_in: u64,
    pub steps: u32,
}

/// A call that mostly moves things forward.
pub fn random_call(rng: &mut Rng, n: u32, style: &Style, table: &[u32]) -> Call {
    if rng.once_in(style.bad_once_in) {
        let edge = [0, 1, n, n + 1, 12, 13, u32::MAX];
        let member = *rng.pick(&edge);
        return match rng.below(3) {
            0 => Call::Begin { member, slot: *rng.pick(&edge), op_type: rng.between(0, 3), sheet: random_sheet(rng) },
            1 => Call::Deliver { member },
            _ => Call::Crash { member },
        };
    }
    let member = rng.between(1, n);
    if rng.once_in(style.crash_once_in) {
        return Call::Crash { member };
    }
    if phase_of(table, member) == IDLE {
        let slot = rng.between(1, style.slots);
        let op_type = allowed_type(rng, member, slot);
        return Call::Begin { member, slot, op_type, sheet: random_sheet(rng) };
    }
    Call::Deliver { member }
}
