// The check of another vendor's log (document 02, request (l)), clause by
// clause, and the log of a run of the simulator's own board.

use crate::board::*;
use crate::reference::Call;

pub const ROW_WORDS: usize = 14;
pub const MOST_ROWS: usize = 1_024;

/// An accepted operation.
#[derive(Clone, Copy, Debug, PartialEq, Eq)]
pub struct Row {
    pub member: u32,
    pub op_type: u32,
    pub slot: u32,
    pub value: Sheet,
    pub begin: u32,
    pub acceptance: u32,
    pub end: u32, // 0 for none
}

impl Row {
    pub fn of_words(words: &[u32]) -> Row {
        let mut value = [0; 8];
        value.copy_from_slice(&words[3..11]);
        Row { member: words[0], op_type: words[1], slot: words[2], value, begin: words[11], acceptance: words[12], end: words[13] }
    }

    pub fn words(&self) -> Vec<u32> {
        let head = [self.member, self.op_type, self.slot];
        let positions = [self.begin, self.acceptance, self.end];
        [&head[..], &self.value, &positions].concat()
    }

    pub fn ended(&self) -> bool {
        self.end != 0
    }
}

pub fn rows_of(log: &[u32]) -> Vec<Row> {
    log.chunks(ROW_WORDS).map(Row::of_words).collect()
}

pub fn words_of(rows: &[Row]) -> Vec<u32> {
    rows.iter().flat_map(Row::words).collect()
}

/// The nearest row of the member among those above.
pub fn row_before(above: &[Row], member: u32) -> Option<&Row> {
    above.iter().rev().find(|row| row.member == member)
}

/// The last write to the slot, ended or not.
pub fn last_write(above: &[Row], slot: u32) -> Option<&Row> {
    above.iter().rev().find(|row| row.op_type == WRITE && row.slot == slot)
}

// ---------------------------------------------------------------- the check

/// What is asked of each row.
#[derive(Clone, Copy, Debug, PartialEq, Eq)]
pub enum Clause {
    Member,
    Slot,
    Type,
    Begin,
    OwnSlot,
    Rising,
    BeginBelow,
    EndAbove,
    BeforeEnded,
    AboveBefore,
    Value,
}

pub const CLAUSES: [Clause; 11] = [
    Clause::Member,
    Clause::Slot,
    Clause::Type,
    Clause::Begin,
    Clause::OwnSlot,
    Clause::Rising,
    Clause::BeginBelow,
    Clause::EndAbove,
    Clause::BeforeEnded,
    Clause::AboveBefore,
    Clause::Value,
];

impl Clause {
    pub fn name(self) -> &'static str {
        match self {
            Clause::Member => "member in 1 to n",
            Clause::Slot => "slot in 1 to n",
            Clause::Type => "type 1 or 2",
            Clause::Begin => "begin not 0",
            Clause::OwnSlot => "write to the own slot",
            Clause::Rising => "acceptances rise",
            Clause::BeginBelow => "begin below acceptance",
            Clause::EndAbove => "acceptance below end",
            Clause::BeforeEnded => "the member's row before has an end",
            Clause::AboveBefore => "begin above the end of the member's row before",
            Clause::Value => "value of an ended read",
        }
    }

    /// Does it hold of the row behind the rows above?
    fn holds(self, n: u32, above: &[Row], row: &Row) -> bool {
        match self {
            Clause::Member => in_range(row.member, n),
            Clause::Slot => in_range(row.slot, n),
            Clause::Type => row.op_type == READ || row.op_type == WRITE,
            Clause::Begin => row.begin != 0,
            Clause::OwnSlot => row.op_type != WRITE || row.slot == row.member,
            Clause::Rising => above.last().is_none_or(|last| last.acceptance < row.acceptance),
            Clause::BeginBelow => row.begin < row.acceptance,
            Clause::EndAbove => !row.ended() || row.acceptance < row.end,
            Clause::BeforeEnded => row_before(above, row.member).is_none_or(|before| before.ended()),
            Clause::AboveBefore => row_before(above, row.member).is_none_or(|before| !before.ended() || before.end < row.begin),
            Clause::Value => row.op_type != READ || !row.ended() || row.value == value_of(above, row.slot),
        }
    }
}

/// What a read of the slot returns behind these rows.
fn value_of(above: &[Row], slot: u32) -> Sheet {
    match last_write(above, slot) {
        Some(write) => write.value,
        None => [0; 8],
    }
}

/// The clauses that do not hold of every row.
pub fn failing(n: u32, rows: &[Row]) -> Vec<Clause> {
    let holds = |clause: &Clause| (0..rows.len()).all(|at| clause.holds(n, &rows[..at], &rows[at]));
    CLAUSES.into_iter().filter(|clause| !holds(clause)).collect()
}

/// The call: 0 and the verdict, 1 yes or 0 no; or the number of the first
/// ground to refuse it, and then the verdict stays.
pub fn check(log: &[u32], n: u32, verdict: &mut [u32]) -> u32 {
    if !n_is_good(n) {
        return 1;
    }
    if log.len() % ROW_WORDS != 0 || verdict.len() != 1 {
        return 2;
    }
    if log.len() / ROW_WORDS > MOST_ROWS {
        return 34;
    }
    let yes = failing(n, &rows_of(log)).is_empty();
    verdict[0] = if yes { 1 } else { 0 };
    0
}

// ---------------------------------------------------------------- the log of a run

/// A run from its kind's opening, and its log so far.
pub struct Logged {
    pub kind: Kind,
    pub table: Vec<u32>,
    pub log: Vec<Row>,
    steps: u32, // all calls, refused ones too
    begins: Vec<u32>, // the step of each member's last begin
}

impl Logged {
    pub fn new(kind: Kind, n: u32) -> Logged {
        let mut table = vec![0; table_words(n)];
        assert_eq!(kind.open(&mut table, n), 0);
        Logged { kind, table, log: Vec::new(), steps: 0, begins: vec![0; n as usize] }
    }

    /// The call's number.
    pub fn call(&mut self, call: &Call) -> u32 {
        self.steps += 1;
        match call {
            Call::Begin { member, slot, op_type, sheet } => {
                let number = self.kind.begin(&mut self.table, *member, *slot, *op_type, sheet);
                if number == 0 {
                    self.begins[*member as usize - 1] = self.steps;
                }
                number
            }
            Call::Deliver { member } => self.deliver(*member),
            Call::Crash { member } => crash(&mut self.table, *member),
        }
    }

    fn deliver(&mut self, member: u32) -> u32 {
        let answer = deliver(&mut self.table, member);
        if answer.number == 0 {
            match phase_of(&self.table, member) {
                ACCEPTED_SENT => self.accepted(member),
                IDLE => self.ended(member, answer.returned),
                _ => {}
            }
        }
        answer.number
    }

    fn accepted(&mut self, member: u32) {
        let Block { slot, op_type, pending_sheet, .. } = block_of(&self.table, member);
        let value = if op_type == WRITE { pending_sheet } else { [0; 8] };
        let begin = self.begins[member as usize - 1];
        self.log.push(Row { member, op_type, slot, value, begin, acceptance: self.steps, end: 0 });
    }

    /// An aborted operation has no row, and all earlier ones of its member have their ends.
    fn ended(&mut self, member: u32, returned: Option<Sheet>) {
        if let Some(row) = self.log.iter_mut().find(|row| row.member == member && !row.ended()) {
            row.end = self.steps;
            row.value = returned.unwrap_or(row.value);
        }
    }
}
