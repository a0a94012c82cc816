// A tool asked, and its answers looked for a second way too.

use crate::asked::{printed, read_arguments, Ground, Run, Tool};
use crate::asked_cases::{numbers, operations_and_about, script, Arguments};
use crate::reference::Call;
use crate::rng::Rng;
use crate::script::Step;
use crate::script_cases::{deliver, random_script, read, write, Manner};
use std::fmt::{Debug, Display};

pub struct TwoWays<Found: 'static> {
    pub tool: Tool<Found>,
    pub again: fn(&Run, u32, u32) -> Option<Found>,
}

impl<Found: Debug + Display + PartialEq> TwoWays<Found> {
    /// What is found, which both ways agree on.
    pub fn find(&self, run: &Run, member: u32, ordinal: u32) -> Result<Found, Ground> {
        let found = (self.tool.find)(run, member, ordinal);
        let again = (self.again)(run, member, ordinal);
        assert_eq!(found.as_ref().ok(), again.as_ref(), "{} {} in {:?}", member, ordinal, run.steps);
        found
    }

    /// What is printed.
    pub fn ask(&self, arguments: &Arguments, script: &[u8]) -> String {
        let run = self.tool.run(script);
        if let (Ok((member, ordinal)), Ok(run)) = (read_arguments(arguments), &run) {
            let _ = self.find(run, member, ordinal);
        }
        String::from_utf8(printed(&self.tool.answer(arguments, &run))).unwrap()
    }

    /// For each member and ordinal, what is printed but the line feed.
    pub fn expect(&self, lines: &str, expected: &[(u32, u32, &str)]) {
        for (member, ordinal, out) in expected {
            let found = self.ask(&numbers(*member, *ordinal), &script(lines));
            assert_eq!(found, format!("{}\n", out), "{} {} in {}", member, ordinal, lines);
        }
    }

    /// What is printed of member 1's first operation.
    pub fn first_of_one(&self, script: &[u8]) -> String {
        self.ask(&numbers(1, 1), script)
    }

    /// Every operation of a run, and the ordinals and members about them.
    pub fn ask_all(&self, rng: &mut Rng, n: u32, manner: &Manner, mut see: impl FnMut(&Run, u32, u32, Result<Found, Ground>)) {
        let run = self.tool.run(&random_script(rng, n, manner)).expect("it has no bad line");
        for (member, ordinal) in operations_and_about(run.n, &run.seen) {
            see(&run, member, ordinal, self.find(&run, member, ordinal));
        }
    }
}

/// For the book.
pub fn call_of(step: &Step) -> Call {
    match *step {
        Step::Write { member, value } => write(member, value),
        Step::Read { member, slot } => read(member, slot),
        Step::Deliver { member } => deliver(member),
        Step::Crash { member } => Call::Crash { member },
    }
}
