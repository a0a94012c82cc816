// What the tools share that are asked about an operation (document 02, requests
// (e) and (m)): arguments and script are read, the script is run on the board,
// what happens is written down in plain lists, and the operation is looked for
// in them.

use crate::board::{n_is_good, new_table, phase_of, ABORTED_SENT, ACCEPTED_SENT, REPLY_SENT};
use crate::script::{next_line, number, parse, Line, Step};
use std::fmt::Display;

pub const MOST_BYTES: usize = 65_535;

/// Why nothing is said of an operation, in the order of the checks.
#[derive(Clone, Copy, Debug, PartialEq, Eq)]
pub enum Ground {
    Arguments,
    TooLong,
    TooManySteps,
    NoLine,
    FirstLine,
    LaterLine,
    Members,
    NoOperation,
    Accepted,
    NoVerdict,
}

impl Ground {
    pub fn number(self) -> u32 {
        match self {
            Ground::TooManySteps => 35,
            Ground::Arguments | Ground::TooLong | Ground::NoLine | Ground::FirstLine | Ground::LaterLine => 17,
            Ground::Members => 1,
            Ground::NoOperation | Ground::Accepted | Ground::NoVerdict => 31,
        }
    }
}

/// A begin that was answered 0, and the steps at which the host took its two messages.
#[derive(Clone, Debug, PartialEq, Eq)]
pub struct Operation {
    pub member: u32,
    pub slot: u32,
    pub begin: u32,
    pub submit: Option<u32>,
    pub commit: Option<u32>,
    pub aborted: bool, // by the commit's verdict
}

/// The host took a submit.
#[derive(Clone, Debug, PartialEq, Eq)]
pub struct Submit {
    pub step: u32,
    pub member: u32,
    pub slot: u32,
}

/// What happened in a run, in its order.
#[derive(Clone, Debug, Default)]
pub struct Seen {
    pub answers: Vec<u32>, // to each step
    pub operations: Vec<Operation>,
    pub submits: Vec<Submit>,
}

/// Runs the steps, numbered from 1, on a board of n.
pub fn watch(n: u32, steps: &[Step]) -> Seen {
    let mut table = new_table(n);
    let mut seen = Seen::default();
    for (before, step) in steps.iter().enumerate() {
        let answer = step.make(&mut table).number;
        seen.answers.push(answer);
        if answer == 0 {
            seen.note(before as u32 + 1, step, &table);
        }
    }
    seen
}

impl Seen {
    /// A step that was answered 0, and the table after it.
    fn note(&mut self, at: u32, step: &Step, table: &[u32]) {
        match *step {
            Step::Write { member, .. } => self.note_begin(at, member, member),
            Step::Read { member, slot } => self.note_begin(at, member, slot),
            Step::Deliver { member } => self.note_deliver(at, member, phase_of(table, member)),
            Step::Crash { .. } => {}
        }
    }

    fn note_begin(&mut self, at: u32, member: u32, slot: u32) {
        self.operations.push(Operation { member, slot, begin: at, submit: None, commit: None, aborted: false });
    }

    /// A deliver belongs to its member's last operation. What it was, the phase after it tells.
    fn note_deliver(&mut self, at: u32, member: u32, phase: u32) {
        let operation = self.operations.iter_mut().rev().find(|operation| operation.member == member);
        let operation = operation.expect("nothing is delivered before a begin");
        if phase == REPLY_SENT {
            operation.submit = Some(at);
            self.submits.push(Submit { step: at, member, slot: operation.slot });
        } else if phase == ACCEPTED_SENT || phase == ABORTED_SENT {
            operation.commit = Some(at);
            operation.aborted = phase == ABORTED_SENT;
        }
    }

    /// The operation of this ordinal, from 1, among the member's.
    pub fn named(&self, member: u32, ordinal: u32) -> Option<&Operation> {
        let mut before = 0;
        for operation in &self.operations {
            if operation.member == member {
                before += 1;
                if before == ordinal {
                    return Some(operation);
                }
            }
        }
        None
    }

    /// The same, where the host's verdict was that it is aborted.
    pub fn aborted(&self, member: u32, ordinal: u32) -> Result<&Operation, Ground> {
        let operation = self.named(member, ordinal).ok_or(Ground::NoOperation)?;
        if operation.commit.is_none() {
            return Err(Ground::NoVerdict);
        }
        if !operation.aborted {
            return Err(Ground::Accepted);
        }
        Ok(operation)
    }
}

/// Member and ordinal, as a script writes numbers.
pub fn read_arguments(arguments: &[Vec<u8>]) -> Result<(u32, u32), Ground> {
    if arguments.len() != 2 {
        return Err(Ground::Arguments);
    }
    let member = number(&arguments[0]).ok_or(Ground::Arguments)?;
    let ordinal = number(&arguments[1]).ok_or(Ground::Arguments)?;
    Ok((member, ordinal))
}

/// Without their line feeds.
pub fn lines_of(script: &[u8]) -> Vec<Vec<u8>> {
    let mut rest = script;
    std::iter::from_fn(|| next_line(&mut rest).expect("what is in memory can be read")).collect()
}

/// The number of members and the steps. Lines are counted before any is looked at.
pub fn read_script(script: &[u8], most_steps: usize) -> Result<(u32, Vec<Step>), Ground> {
    if script.len() > MOST_BYTES {
        return Err(Ground::TooLong);
    }
    let lines = lines_of(script);
    let (first, later) = lines.split_first().ok_or(Ground::NoLine)?;
    if later.len() > most_steps {
        return Err(Ground::TooManySteps);
    }
    let Some(Line::Members(n)) = parse(first) else {
        return Err(Ground::FirstLine);
    };
    let mut steps = Vec::new();
    for line in later {
        let Some(Line::Step(step)) = parse(line) else {
            return Err(Ground::LaterLine);
        };
        steps.push(step);
    }
    if !n_is_good(n) {
        return Err(Ground::Members);
    }
    Ok((n, steps))
}

/// A script that is run, and what happened in it.
pub struct Run {
    pub n: u32,
    pub steps: Vec<Step>,
    pub seen: Seen,
}

/// A tool: the most steps of a script that it runs, and what it finds of the
/// operation of a member and an ordinal. What is found is shown as it is printed.
pub struct Tool<Found> {
    pub most_steps: usize,
    pub find: fn(&Run, u32, u32) -> Result<Found, Ground>,
}

impl<Found: Display> Tool<Found> {
    pub fn run(&self, script: &[u8]) -> Result<Run, Ground> {
        let (n, steps) = read_script(script, self.most_steps)?;
        let seen = watch(n, &steps);
        Ok(Run { n, steps, seen })
    }

    /// What the tool says of its arguments, the program's name left out, and its input's run.
    pub fn answer(&self, arguments: &[Vec<u8>], run: &Result<Run, Ground>) -> Result<Found, Ground> {
        let (member, ordinal) = read_arguments(arguments)?;
        match run {
            Ok(run) => (self.find)(run, member, ordinal),
            Err(ground) => Err(*ground),
        }
    }
}

/// How a tool prints what it says.
pub fn printed<Found: Display>(answer: &Result<Found, Ground>) -> Vec<u8> {
    match answer {
        Ok(found) => format!("{}\n", found).into_bytes(),
        Err(ground) => format!("{}\n", ground.number()).into_bytes(),
    }
}
