// The tool that names who overtook an operation, as it is tested, and what its
// cases try that no other tool's do.

use crate::asked::{Ground, Submit, MOST_BYTES};
use crate::asked_grounds::{Case, Facts, Tested};
use crate::overtaker::OVERTAKER;
use crate::overtaker_cases::cases;

pub const TESTED: Tested<Submit> = Tested { name: "overtaker", tool: OVERTAKER, cases, can_occur: &["named"], facts };

fn facts(case: &Case<Submit>) -> Facts {
    let longest = case.script.len() == MOST_BYTES;
    match case.answered {
        Ok(first) => vec![
            ("named", true),
            ("named, in 65,535 bytes", longest),
            ("named, at step 1,000 or above", first.step >= 1_000),
        ],
        Err(Ground::LaterLine) => vec![("17 later line, in 65,535 bytes", longest)],
        Err(_) => Vec::new(),
    }
}
