// Who overtook an operation (document 02, request (e)): looked for in what
// happened in a run.

use crate::asked::{Ground, Operation, Seen, Submit, Tool};
use std::fmt::{Display, Formatter, Result as Written};

/// It takes as many steps as its bytes have room for.
pub const OVERTAKER: Tool<Submit> =
    Tool { most_steps: usize::MAX, find: |run, member, ordinal| run.seen.overtaker(member, ordinal) };

impl Display for Submit {
    fn fmt(&self, out: &mut Formatter) -> Written {
        write!(out, "{} {}", self.member, self.step)
    }
}

impl Seen {
    /// All submits on the operation's slot between its own and its commit.
    pub fn between(&self, operation: &Operation) -> Vec<&Submit> {
        let (Some(from), Some(to)) = (operation.submit, operation.commit) else {
            return Vec::new();
        };
        let on_slot = self.submits.iter().filter(|submit| submit.slot == operation.slot);
        on_slot.filter(|submit| submit.step > from && submit.step < to).collect()
    }

    pub fn overtaker(&self, member: u32, ordinal: u32) -> Result<Submit, Ground> {
        let operation = self.aborted(member, ordinal)?;
        let between = self.between(operation);
        let first = between.iter().min_by_key(|submit| submit.step);
        Ok((*first.expect("nobody is aborted who was not overtaken")).clone())
    }
}
