// The tool that finds the step that cost an operation, as it is tested, and what
// its cases try that no other tool's do.

use crate::asked::{lines_of, watch, Ground, Operation, Tool, MOST_BYTES};
use crate::asked_grounds::{Case, Facts, Occurs, Tested};
use crate::cause::{accepted, without, Cause, CAUSE};
use crate::cause_cases::cases;
use crate::script::Step;
use std::collections::BTreeSet;

pub const TESTED: Tested<Cause> = Tested { name: "cause", tool: CAUSE, cases, can_occur: &CAN_OCCUR, facts };

const CAN_OCCUR: [&str; 14] = [
    "found", "none", "35 steps", "found of 2", "found of 3", "found of 4", "found of 5", "found of 6", "found of 7", "found of 8",
    "found of 9", "found of 10", "found of 11", "found of 12",
];

fn facts(case: &Case<Cause>) -> Facts {
    let steps = lines_of(case.script).len().saturating_sub(1);
    let left_out = || LeftOut { occurs: case.occurs().expect("nothing else is answered") };
    match case.answered {
        Ok(Cause::Step(step)) => left_out().found(*step),
        Ok(Cause::None) => left_out().none(case.bare()),
        Err(Ground::Arguments) => vec![("17 arguments, or it would be 35", steps > CAUSE.most_steps)],
        Err(Ground::TooLong) => vec![
            ("17 too long, or it would be 35", steps > CAUSE.most_steps),
            ("17 too long, in 256 steps", steps == CAUSE.most_steps),
        ],
        Err(Ground::TooManySteps) => too_many(case, steps),
        Err(ground) => at_most(*ground, case, steps),
    }
}

/// Would it be answered if one step more were allowed, and how?
fn too_many(case: &Case<Cause>, steps: usize) -> Facts {
    let otherwise = Tool { most_steps: CAUSE.most_steps + 1, ..CAUSE };
    let otherwise = otherwise.answer(case.arguments, &otherwise.run(case.script));
    let refused = |ground: Ground| matches!(&otherwise, Err(other) if *other == ground);
    let one = steps == CAUSE.most_steps + 1;
    vec![
        ("35 by one step", one),
        ("35 by one step, without its line feed", one && case.bare()),
        ("35 by an empty line", one && case.script.ends_with(b"\n\n")),
        ("35 in 65,535 bytes", case.script.len() == MOST_BYTES),
        ("35, or it would be 17 by the first line", refused(Ground::FirstLine)),
        ("35, or it would be 17 by a later line", refused(Ground::LaterLine)),
        ("35, or it would be 1", refused(Ground::Members)),
        ("35, or it would be 31", refused(Ground::NoOperation)),
        ("35, or a step would be found", matches!(otherwise, Ok(Cause::Step(_)))),
        ("35, or it would be none", matches!(otherwise, Ok(Cause::None))),
    ]
}

/// The grounds behind 35, in as many steps as there may be.
fn at_most(ground: Ground, case: &Case<Cause>, steps: usize) -> Facts {
    let at = |other: Ground| ground == other && steps == CAUSE.most_steps;
    vec![
        ("17 first line, in 256 steps", at(Ground::FirstLine)),
        ("17 later line, in 256 steps", at(Ground::LaterLine)),
        ("17 later line, in 256 steps and 65,535 bytes", at(Ground::LaterLine) && case.script.len() == MOST_BYTES),
        ("1 in 256 steps", at(Ground::Members)),
        ("31 in 256 steps", at(Ground::NoOperation)),
    ]
}

/// An aborted operation's script with lines left out.
struct LeftOut<'a> {
    occurs: Occurs<'a>,
}

impl LeftOut<'_> {
    fn accepted(&self, steps: &[Step]) -> bool {
        accepted(self.occurs.run.n, steps, self.occurs.operation.member, self.occurs.ordinal)
    }

    fn would_do(&self, step: u32) -> bool {
        self.accepted(&without(&self.occurs.run.steps, step))
    }

    /// The steps of the operation's member, or those of the others.
    fn steps(&self, own: bool) -> Vec<u32> {
        let of = |step: &Step| (step.member() == self.occurs.operation.member) == own;
        let all = (1..).zip(&self.occurs.run.steps);
        all.filter(|(_, step)| of(step)).map(|(at, _)| at).collect()
    }

    fn overtakers(&self) -> BTreeSet<u32> {
        self.occurs.run.seen.between(self.occurs.operation).iter().map(|submit| submit.member).collect()
    }

    fn found(&self, step: u32) -> Facts {
        [self.which(step), self.beside(step), self.where_at(step)].concat()
    }

    /// The operation that a step of its member belongs to.
    fn operation_of(&self, step: u32) -> &Operation {
        let member = self.occurs.run.steps[step as usize - 1].member();
        let mut operations = self.occurs.run.seen.operations.iter().rev();
        operations.find(|operation| operation.member == member && operation.begin <= step).expect("a refused step costs nothing")
    }

    /// Which step it is, of which operation.
    fn which(&self, step: u32) -> Facts {
        let (operation, of, overtaking) = (self.occurs.operation, self.operation_of(step), self.occurs.overtaking());
        let (begin, earlier) = (of.begin == step, of.begin < overtaking.begin);
        vec![
            ("found, the overtaking begin", step == overtaking.begin),
            ("found, the overtaking submit", Some(step) == overtaking.submit),
            ("found, a begin of an earlier operation", begin && earlier),
            ("found, a deliver of an earlier operation", !begin && earlier),
            ("found, of an operation two before", self.between_operations(of, overtaking) > 0),
            ("found, of an operation on another slot", of.slot != operation.slot),
            ("found, before the operation's begin", step < operation.begin),
            ("found, between its begin and its submit", step > operation.begin && Some(step) < operation.submit),
            ("found, after its submit", Some(step) > operation.submit),
        ]
    }

    /// How many operations of a member lie between two of them.
    fn between_operations(&self, one: &Operation, other: &Operation) -> usize {
        let between = |operation: &&Operation| operation.member == one.member && operation.begin > one.begin;
        self.occurs.run.seen.operations.iter().filter(between).filter(|operation| operation.begin < other.begin).count()
    }

    /// What other steps would do, and what this one moves.
    fn beside(&self, step: u32) -> Facts {
        let (seen, overtaking) = (&self.occurs.run.seen, self.occurs.overtaking());
        let others = self.steps(false);
        let refused = |at: &u32| *at < step && seen.answers[*at as usize - 1] != 0;
        vec![
            ("found, and a later one would do too", others.iter().any(|at| *at > step && self.would_do(*at))),
            ("found, and an own step before would do", self.steps(true).iter().any(|at| *at < step && self.would_do(*at))),
            ("found, and the overtaking begin would not do", !self.would_do(overtaking.begin)),
            ("found, and the overtaking submit would not do", !self.would_do(overtaking.submit.unwrap())),
            ("found, several submits between", seen.between(self.occurs.operation).len() > 1),
            ("found, behind a refused step of another", others.iter().any(refused)),
            ("found, and a step takes effect that was refused", self.takes_effect(step)),
        ]
    }

    /// A later step of its member is answered 0 without it, and was not.
    fn takes_effect(&self, left_out: u32) -> bool {
        let run = self.occurs.run;
        let anew = watch(run.n, &without(&run.steps, left_out)).answers;
        let later = left_out as usize..run.steps.len();
        later.into_iter().any(|place| run.seen.answers[place] != 0 && anew[place - 1] == 0)
    }

    /// Where it stands, and on which board.
    fn where_at(&self, step: u32) -> Facts {
        let run = self.occurs.run;
        let most = CAUSE.most_steps as u32;
        vec![
            ("found", true),
            (CAN_OCCUR[run.n as usize + 1], true),
            ("found, in 256 steps", run.steps.len() == CAUSE.most_steps),
            ("found, the verdict at step 256", self.occurs.operation.commit == Some(most)),
            ("found, at step 1", step == 1),
            ("found, at step 250 or above", step >= 250),
            ("found, behind a step of no member", run.steps[..step as usize - 1].iter().any(|other| other.member() > run.n)),
        ]
    }

    fn none(&self, bare: bool) -> Facts {
        let run = self.occurs.run;
        let (overtakers, submits) = (self.overtakers().len(), run.seen.between(self.occurs.operation).len());
        vec![
            ("none", true),
            ("none, two overtakers", overtakers == 2),
            ("none, three overtakers or more", overtakers > 2),
            ("none, one overtaker once", overtakers == 1 && submits == 1),
            ("none, one overtaker several times", overtakers == 1 && submits > 1),
            ("none, and an own step would do", self.steps(true).iter().any(|at| self.would_do(*at))),
            ("none, and two steps would do together", run.steps.len() <= 24 && self.two_would_do()),
            ("none, in 256 steps", run.steps.len() == CAUSE.most_steps),
            ("none, the last line without its line feed", bare),
        ]
    }

    fn two_would_do(&self) -> bool {
        let others = self.steps(false);
        let pair = |later: u32, earlier: u32| without(&without(&self.occurs.run.steps, later), earlier);
        others.iter().any(|later| others.iter().any(|earlier| earlier < later && self.accepted(&pair(*later, *earlier))))
    }
}
