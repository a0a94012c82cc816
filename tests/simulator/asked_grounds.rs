// What a case of a tool tries: on which ground nothing is said of the operation,
// and what else is so of it that a wrong tool may stumble over.

use crate::asked::{read_arguments, watch, Ground, Operation, Run, Submit, Tool, MOST_BYTES};
use crate::asked_cases::{passing_over_bad_lines, Asked};
use crate::grounds::Grounds;
use crate::rng::Rng;
use crate::script::Step;

/// A tool, what it is asked, and what its cases try beside what those of every tool do.
pub struct Tested<Found: 'static> {
    pub name: &'static str,
    pub tool: Tool<Found>,
    pub cases: fn(&mut Rng, u32) -> Vec<Asked>,
    pub can_occur: &'static [&'static str],
    pub facts: fn(&Case<Found>) -> Facts,
}

pub type Facts = Vec<(&'static str, bool)>;

/// A case, its script as it was run, and its answer.
pub struct Case<'a, Found> {
    pub arguments: &'a [Vec<u8>],
    pub script: &'a [u8],
    pub run: &'a Result<Run, Ground>,
    pub answered: &'a Result<Found, Ground>,
}

/// The grounds that every tool has.
const SHARED: [Ground; 9] = [
    Ground::Arguments,
    Ground::TooLong,
    Ground::NoLine,
    Ground::FirstLine,
    Ground::LaterLine,
    Ground::Members,
    Ground::NoOperation,
    Ground::Accepted,
    Ground::NoVerdict,
];

fn name_of(ground: Ground) -> &'static str {
    match ground {
        Ground::Arguments => "17 arguments",
        Ground::TooLong => "17 too long",
        Ground::TooManySteps => "35 steps",
        Ground::NoLine => "17 no line",
        Ground::FirstLine => "17 first line",
        Ground::LaterLine => "17 later line",
        Ground::Members => "1 members",
        Ground::NoOperation => "31 no operation",
        Ground::Accepted => "31 accepted",
        Ground::NoVerdict => "31 no verdict",
    }
}

/// An aborted operation is asked about on a board of this size, from 1.
const SIZES: [&str; 12] = [
    "", "aborted of 2", "aborted of 3", "aborted of 4", "aborted of 5", "aborted of 6", "aborted of 7", "aborted of 8", "aborted of 9",
    "aborted of 10", "aborted of 11", "aborted of 12",
];

/// Prints how often each came up; gives which never did.
pub fn missing<Found>(tested: &Tested<Found>, grounds: &Grounds) -> Vec<String> {
    let mut can_occur: Vec<&str> = SHARED.iter().map(|ground| name_of(*ground)).collect();
    can_occur.extend(&SIZES[1..]);
    can_occur.extend(tested.can_occur);
    grounds.missing(tested.name, &can_occur)
}

pub fn count<Found>(tested: &Tested<Found>, grounds: &mut Grounds, case: &Case<Found>) {
    if let Err(ground) = case.answered {
        grounds.count(name_of(*ground));
    }
    for (name, holds) in [case.facts(), (tested.facts)(case)].concat() {
        grounds.see(name, holds);
    }
}

impl<Found> Case<'_, Found> {
    pub fn bare(&self) -> bool {
        !self.script.is_empty() && self.script.last() != Some(&b'\n')
    }

    /// The operation, where arguments and script are good and it occurs.
    pub fn occurs(&self) -> Option<Occurs<'_>> {
        let (Ok((member, ordinal)), Ok(run)) = (read_arguments(self.arguments), self.run) else {
            return None;
        };
        run.seen.named(member, ordinal).map(|operation| Occurs { run, operation, ordinal })
    }

    /// What every tool's cases try.
    fn facts(&self) -> Facts {
        let (member, ordinal) = match read_arguments(self.arguments) {
            Ok(asked) => asked,
            Err(_) => return self.of_arguments(),
        };
        match self.run {
            Err(Ground::TooLong) => vec![("17 too long by a byte", self.script.len() == MOST_BYTES + 1)],
            Err(Ground::LaterLine) => self.of_later_line(member, ordinal),
            Err(_) => Vec::new(),
            Ok(run) => self.occurs().map_or_else(|| of_no_operation(run, member, ordinal), |occurs| self.of_operation(&occurs)),
        }
    }

    fn of_arguments(&self) -> Facts {
        let arguments = self.arguments;
        let any = |is: fn(&[u8]) -> bool| arguments.len() == 2 && arguments.iter().any(|argument| is(argument));
        vec![
            ("17 no argument", arguments.is_empty()),
            ("17 one argument", arguments.len() == 1),
            ("17 three arguments", arguments.len() == 3),
            ("17 three arguments, of which two are good", arguments.len() == 3 && read_arguments(&arguments[..2]).is_ok()),
            ("17 an empty argument", any(|argument| argument.is_empty())),
            ("17 an argument that is no text", any(|argument| std::str::from_utf8(argument).is_err())),
            ("17 an argument with a sign", any(|argument| argument.starts_with(b"+") || argument.starts_with(b"-"))),
            ("17 an argument with a leading zero", any(|argument| argument.starts_with(b"0") && argument.len() > 1)),
            ("17 2^32 as an argument", any(|argument| argument == b"4294967296")),
            ("17 arguments, and the script is refused too", self.run.is_err()),
        ]
    }

    /// Would the script without the bad lines be answered otherwise?
    fn of_later_line(&self, member: u32, ordinal: u32) -> Facts {
        let without = passing_over_bad_lines(self.script);
        let aborted = without.map(|(n, steps)| watch(n, &steps).aborted(member, ordinal).is_ok());
        vec![
            ("17 later line, or the operation was aborted", aborted == Some(true)),
            ("17 later line, or it would be 31", aborted == Some(false)),
            ("17 later line, or it would be 1", aborted.is_none()),
        ]
    }

    fn of_operation(&self, occurs: &Occurs) -> Facts {
        match self.answered {
            Err(Ground::Accepted) => occurs.accepted(),
            Err(_) => occurs.no_verdict(),
            Ok(_) => [occurs.aborted(), vec![("aborted, the last line without its line feed", self.bare())]].concat(),
        }
    }
}

fn of_no_operation(run: &Run, member: u32, ordinal: u32) -> Facts {
    let begins = |ordinal: u32| run.seen.named(member, ordinal).is_some();
    vec![
        ("31 member 0", member == 0),
        ("31 member above n", member > run.n),
        ("31 ordinal 0", ordinal == 0 && begins(1)),
        ("31 one ordinal too many", ordinal > 1 && begins(ordinal - 1)),
    ]
}

/// An operation that occurs.
pub struct Occurs<'a> {
    pub run: &'a Run,
    pub operation: &'a Operation,
    pub ordinal: u32,
}

impl Occurs<'_> {
    /// Another's submit on the slot in these steps, the bounds left out.
    fn submitted(&self, from: u32, to: u32) -> bool {
        let others = self.run.seen.submits.iter().filter(|submit| submit.member != self.operation.member);
        others.into_iter().any(|submit| submit.slot == self.operation.slot && submit.step > from && submit.step < to)
    }

    /// Nobody halts here, so that the first crash of a member is never refused.
    fn crashed(&self, member: u32, before: u32) -> bool {
        self.run.steps[..before as usize - 1].contains(&Step::Crash { member })
    }

    /// Told of the verdict.
    fn completed(&self, commit: u32) -> bool {
        let member = self.operation.member;
        let deliver = |at: &u32| self.run.steps[*at as usize - 1] == Step::Deliver { member };
        (commit + 1..=self.run.steps.len() as u32).find(deliver).is_some_and(|at| !self.crashed(member, at))
    }

    /// The begin at this step is a read.
    fn is_read(&self, begin: u32) -> bool {
        matches!(self.run.steps[begin as usize - 1], Step::Read { .. })
    }

    fn is_own_read(&self, operation: &Operation) -> bool {
        operation.member == operation.slot && self.is_read(operation.begin)
    }

    /// The member's begins before this one that were refused.
    fn refused_before(&self) -> bool {
        let Operation { member, begin, .. } = *self.operation;
        let begins = |step: &&Step| matches!(step, Step::Write { .. } | Step::Read { .. }) && step.member() == member;
        self.run.steps[..begin as usize - 1].iter().filter(begins).count() >= self.ordinal as usize
    }

    /// The operation whose submit came in first, of an aborted one.
    pub fn overtaking(&self) -> &Operation {
        let first = self.run.seen.between(self.operation)[0].step;
        self.run.seen.operations.iter().find(|other| other.submit == Some(first)).unwrap()
    }

    fn accepted(&self) -> Facts {
        let (submit, commit) = (self.operation.submit.unwrap(), self.operation.commit.unwrap());
        vec![
            ("31 accepted, with a submit between begin and submit", self.submitted(self.operation.begin, submit)),
            ("31 accepted, with a submit behind the verdict", self.submitted(commit, u32::MAX)),
        ]
    }

    fn no_verdict(&self) -> Facts {
        let submit = self.operation.submit;
        let overtaken = submit.is_some_and(|submit| self.submitted(submit, u32::MAX));
        let crashed = self.crashed(self.operation.member, self.run.steps.len() as u32 + 1);
        vec![
            ("31 no submit", submit.is_none()),
            ("31 submitted, and nobody came", submit.is_some() && !overtaken),
            ("31 overtaken without a verdict", overtaken),
            ("31 overtaken, and crashed without a verdict", overtaken && crashed),
        ]
    }

    fn aborted(&self) -> Facts {
        let (seen, operation, overtaking) = (&self.run.seen, self.operation, self.overtaking());
        let (submit, commit, first) = (operation.submit.unwrap(), operation.commit.unwrap(), overtaking.submit.unwrap());
        let elsewhere = |other: &Submit| other.slot != operation.slot && other.step > submit && other.step < first;
        vec![
            (SIZES[self.run.n as usize - 1], true),
            ("aborted, several between", seen.between(operation).len() > 1),
            ("aborted, the overtaker had crashed", self.crashed(overtaking.member, first)),
            ("aborted, its member had crashed", self.crashed(operation.member, commit)),
            ("aborted, never told of it", !self.completed(commit)),
            ("aborted, with a submit between begin and submit", self.submitted(operation.begin, submit)),
            ("aborted, with a submit behind the verdict", self.submitted(commit, u32::MAX)),
            ("aborted, with a submit on another slot before", seen.submits.iter().any(elsewhere)),
            ("aborted, after begins that were refused", self.refused_before()),
            ("aborted, ordinal 10 or above", self.ordinal >= 10),
            ("aborted, a write", !self.is_read(operation.begin)),
            ("aborted, an own read", self.is_own_read(operation)),
            ("aborted, a read of another's slot", operation.member != operation.slot),
            ("aborted, overtaken by an own read", self.is_own_read(overtaking)),
        ]
    }
}
