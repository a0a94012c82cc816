// The step that cost an operation (document 02, request (m)): the script is run
// again without each step of another member, until the operation is accepted.

use crate::asked::{watch, Ground, Run, Tool};
use crate::script::Step;
use std::fmt::{Display, Formatter, Result as Written};

pub const CAUSE: Tool<Cause> = Tool { most_steps: 256, find: cause };

/// The earliest step that did it by itself, or none did.
#[derive(Clone, Copy, Debug, PartialEq, Eq)]
pub enum Cause {
    Step(u32),
    None,
}

impl Display for Cause {
    fn fmt(&self, out: &mut Formatter) -> Written {
        match self {
            Cause::Step(step) => write!(out, "{}", step),
            Cause::None => write!(out, "none"),
        }
    }
}

/// The steps but the one of this number, the others in their order.
pub fn without(steps: &[Step], left_out: u32) -> Vec<Step> {
    let mut steps = steps.to_vec();
    steps.remove(left_out as usize - 1);
    steps
}

pub fn accepted(n: u32, steps: &[Step], member: u32, ordinal: u32) -> bool {
    matches!(watch(n, steps).aborted(member, ordinal), Err(Ground::Accepted))
}

pub fn cause(run: &Run, member: u32, ordinal: u32) -> Result<Cause, Ground> {
    run.seen.aborted(member, ordinal)?;
    for (before, step) in run.steps.iter().enumerate() {
        let left_out = before as u32 + 1;
        if step.member() != member && accepted(run.n, &without(&run.steps, left_out), member, ordinal) {
            return Ok(Cause::Step(left_out));
        }
    }
    Ok(Cause::None)
}
