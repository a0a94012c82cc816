// What is asked of the tool that names who overtook an operation.

use crate::asked::MOST_BYTES;
use crate::asked_cases::{asked, board_scripts, numbers, random_runs, rounds, small_cases, Asked};
use crate::rng::Rng;
use crate::script_cases::{filling, random_script, Manner, USUAL};

pub fn cases(rng: &mut Rng, runs: u32) -> Vec<Asked> {
    let mut cases = small_cases(rng);
    cases.push(many_operations());
    cases.extend(longest_runs(rng));
    cases.extend(board_scripts(rng));
    cases.extend(random_runs(rng, runs, manner));
    cases
}

/// As many as a script has room for.
fn many_operations() -> Asked {
    let times = MOST_BYTES / (rounds(2).len() - rounds(1).len());
    let last = times as u32;
    let ordinals = [1, 9, 10, 255, 256, 257, last - 1, last, last + 1];
    let lists = ordinals.iter().flat_map(|ordinal| [numbers(1, *ordinal), numbers(2, *ordinal)]).collect();
    Asked { name: "many_operations".to_string(), script: rounds(times), lists }
}

/// Busy to the end, and filled up to the most bytes that a script may have.
fn longest_runs(rng: &mut Rng) -> Vec<Asked> {
    let mut cases = Vec::new();
    for n in [2, 3, 6, 11, 12] {
        let manner = Manner { steps: 8_000, crash_once_in: *rng.pick(&[3_000, 1_000_000]), ..USUAL };
        let mut script = random_script(rng, n, &manner);
        script.truncate(MOST_BYTES - 40);
        script.truncate(script.iter().rposition(|byte| *byte == b'\n').unwrap() + 1);
        script.extend(filling(MOST_BYTES - script.len()));
        cases.push(asked(rng, &format!("longest_{}", n), script, 6));
    }
    cases
}

/// Many clashes on few slots, and in a few runs bad lines.
fn manner(rng: &mut Rng) -> Manner {
    Manner {
        steps: *rng.pick(&[12, 40, 120, 400]),
        slots: *rng.pick(&[1, 1, 2, 12]),
        crash_once_in: *rng.pick(&[12, 60, 1_000]),
        bad_once_in: if rng.once_in(8) { 40 } else { u64::MAX },
        ..USUAL
    }
}
