// Whole walks in turn: member halves and a host half that know nothing of
// each other but the messages, which go through writer and reader as bytes.
// The host may be honest, or change and repeat what it sends; messages may be
// damaged, lost or come twice; members crash. Who has lost a message sends it again.

use crate::board::*;
use crate::both::Both;
use crate::calls::Call;
use crate::flat::*;
use crate::message_cases::LONGEST;
use crate::messages::Message;
use crate::noise::noisy_fields;
use crate::random::{allowed_type, any_kind, random_sheet};
use crate::rng::Rng;

const NEVER: u64 = 0;

/// How a walk is driven. The first three happen once in so many times.
struct Style {
    crash: u64,
    lie: u64,    // the host changes a reply, or a seal does not hold
    damage: u64, // a message is damaged, lost, or an old one comes
    slots: u32,  // operations go to the slots 1 to this
}

struct Walk<'a> {
    both: &'a mut Both,
    rng: Rng,
    style: Style,
    kind: Kind,
    n: u32,
    blocks: Vec<Vec<u32>>,
    entries: Vec<u32>,
    mail: Vec<Option<Vec<u8>>>, // the message under way to or from each member
    old: Vec<Vec<u8>>,
}

impl Walk<'_> {
    fn block(&self, member: u32) -> Block {
        block_from_words(&self.blocks[member as usize - 1], self.n)
    }

    fn happens(&mut self, once_in: u64) -> bool {
        once_in != NEVER && self.rng.once_in(once_in)
    }

    fn ask_member(&mut self, call: &Call, member: u32, given: Vec<u32>) {
        self.both.words(call, &mut self.blocks[member as usize - 1], given);
    }

    /// Through the writer, and on its way to or from the member.
    fn send(&mut self, member: u32, message: &Message) {
        let fields = noisy_fields(&mut self.rng, message, self.n);
        let (answer, mut bytes, written) = self.both.write(&fields, self.n, LONGEST);
        if answer != 0 {
            return;
        }
        bytes.truncate(written);
        if self.old.len() > 30 {
            self.old.swap_remove(0);
        }
        self.old.push(bytes.clone());
        if self.happens(self.style.damage) {
            match self.rng.below(4) {
                0 => return,
                1 => bytes = self.rng.pick(&self.old).clone(),
                _ => {
                    let reach = if self.rng.once_in(2) { bytes.len() } else { 5 };
                    let place = self.rng.below(reach as u64) as usize;
                    bytes[place] = *self.rng.pick(&[0, 1, 2, 3, 4, 5, 13, 255]);
                }
            }
        }
        self.mail[member as usize - 1] = Some(bytes);
    }

    fn begin(&mut self, member: u32) {
        let slot = self.rng.between(1, self.style.slots);
        let op_type = allowed_type(&mut self.rng, member, slot);
        let call = Call::Begin { kind: self.kind, n: self.n, member, slot, op_type };
        let sheet = random_sheet(&mut self.rng).to_vec();
        self.ask_member(&call, member, sheet);
    }

    /// What a member whose message is not under way sends, by its block alone.
    fn send_from_block(&mut self, member: u32) {
        let block = self.block(member);
        if block.phase != SUBMIT_SENT && block.phase != COMMIT_SENT {
            return;
        }
        let (slot, op_type, count) = (block.slot, block.op_type, block.own_counts[block.slot as usize - 1]);
        let message = if block.phase == SUBMIT_SENT {
            Message::Submit(Submit { member, slot, op_type, count })
        } else {
            Message::Commit(Record { member, slot, op_type, count, ..block.first })
        };
        self.send(member, &message);
    }

    /// What a host may try.
    fn lie(&mut self, newest: &mut Record, stored: &mut Record) {
        let (row, column) = (self.rng.below(self.n as u64) as usize, self.rng.below(self.n as u64) as usize);
        let slot = self.rng.between(1, self.n);
        match self.rng.below(7) {
            0 => newest.matrix[row][column] = newest.matrix[row][column].wrapping_add(1),
            1 => newest.matrix[row][column] = newest.matrix[row][column].saturating_sub(1),
            2 => stored.matrix[row][column] = stored.matrix[row][column].wrapping_add(1),
            3 => stored.member = slot,
            4 => std::mem::swap(newest, stored),
            5 => *newest = entry_in(&self.entries, self.n, slot).newest,
            _ => *stored = entry_in(&self.entries, self.n, slot).newest,
        }
    }

    fn host_takes_submit(&mut self, member: u32, fields: &[u32]) {
        let call = Call::Submit { n: self.n, member: fields[1], slot: fields[2], op_type: fields[3], count: fields[4] };
        let (answer, records) = self.both.words(&call, &mut self.entries, vec![]);
        if answer != 0 {
            return;
        }
        let mut newest = record_from_words(&records, self.n);
        let mut stored = record_from_words(&records[RECORD..], self.n);
        if self.happens(self.style.lie) {
            self.lie(&mut newest, &mut stored);
        }
        self.send(member, &Message::Reply { newest, stored });
    }

    fn host_takes_commit(&mut self, member: u32, record: Vec<u32>) {
        let (answer, outcome) = self.both.words(&Call::Commit { n: self.n }, &mut self.entries, record);
        if answer == 0 {
            self.send(member, &Message::Outcome(outcome[0]));
        }
    }

    /// The message under way is read and taken by whom it is for.
    fn deliver(&mut self, member: u32, bytes: &[u8]) {
        let (answer, fields) = self.both.read(bytes, self.n);
        if answer != 0 {
            return;
        }
        match fields[0] {
            1 => self.host_takes_submit(member, &fields),
            2 => {
                let seals = if self.happens(2 * self.style.lie) { self.rng.between(0, 4) } else { 3 };
                self.ask_member(&Call::Reply { n: self.n, member, seals }, member, fields[NEWEST..].to_vec());
            }
            3 => self.host_takes_commit(member, fields[NEWEST..STORED].to_vec()),
            _ => {
                self.ask_member(&Call::Outcome { n: self.n, member, outcome: fields[5] }, member, vec![]);
            }
        }
    }

    fn step(&mut self) {
        let member = self.rng.between(1, self.n);
        if self.happens(self.style.crash) {
            self.ask_member(&Call::Crash { n: self.n, member }, member, vec![]);
        }
        if let Some(bytes) = self.mail[member as usize - 1].take() {
            self.deliver(member, &bytes);
            return;
        }
        // An old message comes once more.
        if !self.old.is_empty() && self.happens(self.style.damage) {
            let bytes = self.rng.pick(&self.old).clone();
            self.deliver(member, &bytes);
            return;
        }
        if self.block(member).phase == IDLE {
            self.begin(member);
        }
        self.send_from_block(member);
    }
}

pub fn walk(seed: u64, both: &mut Both) {
    let mut rng = Rng::new(seed);
    let kind = any_kind(&mut rng);
    let n = rng.between(1, kind.most);
    let honest = rng.once_in(3);
    let style = Style {
        crash: *rng.pick(&[100, 1000, NEVER]),
        lie: if honest { NEVER } else { *rng.pick(&[20, 60]) },
        damage: if honest { NEVER } else { *rng.pick(&[12, 60, NEVER]) },
        slots: rng.between(1, n),
    };
    let late = rng.once_in(5); // the own counts are near the limit, or just above it
    let mut blocks = Vec::new();
    for _ in 1..=n {
        let mut block = block_from_words(&vec![0; block_words(n)], n);
        if late {
            block.own_counts.fill(kind.limit.saturating_add(1) - rng.between(0, 4));
        }
        blocks.push(block_to_words(&block));
    }
    let entries = new_table(n)[entries_start(n)..].to_vec();
    let mut walk = Walk { both, rng, style, kind, n, blocks, entries, mail: vec![None; n as usize], old: Vec::new() };
    walk.both.walking = true;
    for _ in 0..if late { 100 } else { 60 * n.max(3) } {
        walk.step();
    }
    walk.both.walking = false;
    let halted = walk.blocks.iter().any(|block| block[0] == HALTED);
    if honest && halted {
        println!("DIFFERENCE: an honest host made a member halt, in the walk of seed {}", seed);
        std::process::exit(1);
    }
}
