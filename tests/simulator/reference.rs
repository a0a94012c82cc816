// The book of a run (document 01): fed n, the limit of the board's kind and the
// calls, nothing else. It knows no table, no matrix and no message.

pub type Sheet = [u32; 8];

const READ: u32 = 1;
const WRITE: u32 = 2;

#[derive(Clone, Copy, Debug, PartialEq, Eq)]
pub enum Call {
    Begin { member: u32, slot: u32, op_type: u32, sheet: Sheet },
    Deliver { member: u32 },
    Crash { member: u32 },
}

/// A running operation.
#[derive(Clone, Copy, Debug)]
pub struct Operation {
    pub slot: u32,
    pub op_type: u32,
    pub sheet: Sheet, // the sheet given to a write
    pub delivers: u32, // how many of its four delivers are done
    pub overtaken: bool,
    pub accepted: bool,
    pub noted: Sheet, // what an accepted read noted
}

/// An accepted operation, in the order of the verdicts.
#[derive(Clone, Debug, PartialEq, Eq)]
pub struct Line {
    pub member: u32,
    pub slot: u32,
    pub op_type: u32,
    pub sheet: Sheet, // written, or noted by a read
}

#[derive(Debug)]
pub struct Member {
    pub crashed: bool,
    pub running: Option<Operation>,
    pub begins: Vec<u32>,
}

#[derive(Debug)]
pub struct Book {
    pub n: u32,
    pub limit: u32, // begins of a member on a slot
    pub sheets: Vec<Sheet>,
    pub members: Vec<Member>,
    pub history: Vec<Line>,
    pub aborted: u64, // how many verdicts were "aborted"
}

// Copies into a book that is there use its room once more.
impl Clone for Member {
    fn clone(&self) -> Member {
        Member { begins: self.begins.clone(), ..*self }
    }

    fn clone_from(&mut self, other: &Member) {
        self.crashed = other.crashed;
        self.running = other.running;
        self.begins.clone_from(&other.begins);
    }
}

impl Clone for Book {
    fn clone(&self) -> Book {
        let mut copy = Book::new(self.n, self.limit);
        copy.clone_from(self);
        copy
    }

    fn clone_from(&mut self, other: &Book) {
        self.n = other.n;
        self.limit = other.limit;
        self.sheets.clone_from(&other.sheets);
        self.members.clone_from(&other.members);
        self.history.clone_from(&other.history);
        self.aborted = other.aborted;
    }
}

impl Book {
    pub fn new(n: u32, limit: u32) -> Book {
        let member = Member { crashed: false, running: None, begins: vec![0; n as usize] };
        Book {
            n,
            limit,
            sheets: vec![[0; 8]; n as usize],
            members: vec![member; n as usize],
            history: Vec::new(),
            aborted: 0,
        }
    }

    pub fn phase(&self, member: u32) -> u32 {
        match &self.members[member as usize - 1].running {
            None => 0,
            Some(op) => match op.delivers {
                0 => 1,
                1 => 2,
                2 => 3,
                _ => {
                    if op.accepted {
                        4
                    } else {
                        5
                    }
                }
            },
        }
    }

    /// The answer to a call and the sheet returned, if any.
    pub fn call(&mut self, call: &Call) -> (u32, Option<Sheet>) {
        match call {
            Call::Begin { member, slot, op_type, sheet } => {
                (self.begin(*member, *slot, *op_type, sheet), None)
            }
            Call::Deliver { member } => self.deliver(*member),
            Call::Crash { member } => (self.crash(*member), None),
        }
    }

    fn has(&self, number: u32) -> bool {
        number != 0 && number <= self.n
    }

    fn begin(&mut self, member: u32, slot: u32, op_type: u32, sheet: &Sheet) -> u32 {
        if !self.has(member) {
            return 4;
        }
        if !self.has(slot) {
            return 5;
        }
        if op_type != READ && op_type != WRITE {
            return 6;
        }
        if op_type == WRITE && member != slot {
            return 7;
        }
        let m = &mut self.members[member as usize - 1];
        if m.running.is_some() || m.crashed {
            return 8;
        }
        let begins = &mut m.begins[slot as usize - 1];
        if *begins >= self.limit {
            return 9;
        }
        *begins += 1;
        m.running = Some(Operation {
            slot,
            op_type,
            sheet: if op_type == WRITE { *sheet } else { [0; 8] },
            delivers: 0,
            overtaken: false,
            accepted: false,
            noted: [0; 8],
        });
        0
    }

    fn deliver(&mut self, member: u32) -> (u32, Option<Sheet>) {
        if !self.has(member) {
            return (4, None);
        }
        let me = member as usize - 1;
        let crashed = self.members[me].crashed;
        let mut op = match &self.members[me].running {
            None => return (10, None),
            Some(op) => *op,
        };
        // The second and the fourth deliver go to the member.
        if crashed && (op.delivers == 1 || op.delivers == 3) {
            return (10, None);
        }
        op.delivers += 1;
        let slot = op.slot as usize - 1;
        match op.delivers {
            1 => {
                for other in 0..self.members.len() {
                    if other == me {
                        continue;
                    }
                    if let Some(its) = &mut self.members[other].running {
                        let between = its.delivers == 1 || its.delivers == 2;
                        if its.slot == op.slot && between {
                            its.overtaken = true;
                        }
                    }
                }
            }
            2 => {}
            3 => {
                if op.overtaken {
                    self.aborted += 1;
                } else {
                    op.accepted = true;
                    if op.op_type == WRITE {
                        self.sheets[slot] = op.sheet;
                    } else {
                        op.noted = self.sheets[slot];
                    }
                    self.history.push(Line {
                        member,
                        slot: op.slot,
                        op_type: op.op_type,
                        sheet: self.sheets[slot],
                    });
                }
            }
            _ => {
                self.members[me].running = None;
                if op.accepted && op.op_type == READ {
                    return (0, Some(op.noted));
                }
                return (0, None);
            }
        }
        self.members[me].running = Some(op);
        (0, None)
    }

    fn crash(&mut self, member: u32) -> u32 {
        if !self.has(member) {
            return 4;
        }
        let m = &mut self.members[member as usize - 1];
        if m.crashed {
            return 11;
        }
        m.crashed = true;
        0
    }
}
