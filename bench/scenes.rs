// Boards on which calls are timed, and the parts of a table that a call changes for good.
use crate::plain_board::Layout;
use crate::timing::{best, round};
use std::hint::black_box;
use std::ops::Range;

/// The calls through the C interface.
pub mod ours {
    mod c {
        extern "C" {
            pub fn concur_board_open(table: *mut u32, words: usize, n: u32) -> u32;
            pub fn concur_board_begin(table: *mut u32, words: usize, member: u32, slot: u32, operation: u32, value: *const u32, room: usize) -> u32;
            pub fn concur_auction_begin(table: *mut u32, words: usize, member: u32, slot: u32, operation: u32, value: *const u32, room: usize) -> u32;
            pub fn concur_board_deliver(table: *mut u32, words: usize, member: u32, returned: *mut u32, room: usize) -> u32;
            pub fn concur_board_crash(table: *mut u32, words: usize, member: u32) -> u32;
        }
    }

    pub fn open(t: &mut [u32], n: u32) -> u32 {
        unsafe { c::concur_board_open(t.as_mut_ptr(), t.len(), n) }
    }

    pub fn begin(t: &mut [u32], member: u32, slot: u32, operation: u32, value: &[u32]) -> u32 {
        unsafe { c::concur_board_begin(t.as_mut_ptr(), t.len(), member, slot, operation, value.as_ptr(), value.len()) }
    }

    pub fn auction_begin(t: &mut [u32], member: u32, slot: u32, operation: u32, value: &[u32]) -> u32 {
        unsafe { c::concur_auction_begin(t.as_mut_ptr(), t.len(), member, slot, operation, value.as_ptr(), value.len()) }
    }

    pub fn deliver(t: &mut [u32], member: u32, returned: &mut [u32]) -> u32 {
        unsafe { c::concur_board_deliver(t.as_mut_ptr(), t.len(), member, returned.as_mut_ptr(), returned.len()) }
    }

    pub fn crash(t: &mut [u32], member: u32) -> u32 {
        unsafe { c::concur_board_crash(t.as_mut_ptr(), t.len(), member) }
    }
}

pub type Begin = fn(&mut [u32], u32, u32, u32, &[u32]) -> u32;
pub type Deliver = fn(&mut [u32], u32, &mut [u32]) -> u32;

pub const VALUE: [u32; 8] = [1, 2, 3, 4, 5, 6, 7, 8];

pub fn operation(member: u32, slot: u32) -> u32 {
    if member == slot { 2 } else { 1 }
}

pub fn must(answer: u32) {
    assert_eq!(answer, 0);
}

pub fn begun(t: &mut [u32], member: u32, slot: u32) {
    must(ours::begin(t, member, slot, operation(member, slot), &VALUE));
}

pub fn delivered(t: &mut [u32], member: u32, times: u32) {
    for _ in 0..times {
        must(ours::deliver(t, member, &mut [0; 9]));
    }
}

/// A board on which every member has used every slot twice, so that no count is zero.
pub fn used_board(n: u32) -> Vec<u32> {
    let mut t = vec![0; Layout::of(n as usize).table()];
    must(ours::open(&mut t, n));
    for _ in 0..2 {
        for member in 1..=n {
            for slot in 1..=n {
                begun(&mut t, member, slot);
                delivered(&mut t, member, 4);
            }
        }
    }
    t
}

/// A table before a call, and the parts of it that are put back after the call so that the next one does the same.
pub struct Scene {
    pub table: Vec<u32>,
    pub back: Vec<Range<usize>>,
}

impl Scene {
    pub fn put_back(&self, t: &mut [u32]) {
        for part in &self.back {
            t[part.clone()].copy_from_slice(&self.table[part.clone()]);
        }
    }

    /// The ways must answer alike and leave the same table before their times mean anything.
    pub fn alike<F: Fn(&mut [u32]) -> u32>(&self, ways: &[F], answer: u32) -> Vec<u32> {
        let mut after = self.table.clone();
        ways[0](&mut after);
        for way in ways {
            let mut t = self.table.clone();
            assert_eq!(way(&mut t), answer);
            assert!(t == after);
        }
        after
    }

    /// And do the same again.
    pub fn repeats<F: Fn(&mut [u32]) -> u32>(&self, way: &F, after: &[u32]) {
        let mut t = after.to_vec();
        self.put_back(&mut t);
        way(&mut t);
        assert!(t == after);
    }

    /// Each way on a table of its own, one call after the other. What putting back alone costs is taken off.
    pub fn times<F: Fn(&mut [u32]) -> u32>(&self, ways: &[F]) -> Vec<f64> {
        let mut rounds = Vec::new();
        for way in ways {
            let mut t = self.table.clone();
            rounds.push(round(move || {
                black_box(way(black_box(&mut t)));
                self.put_back(&mut t);
            }));
        }
        let mut t = self.table.clone();
        rounds.push(round(move || self.put_back(black_box(&mut t))));
        let mut times = best(rounds);
        let back = times.pop().unwrap();
        times.iter().map(|time| time - back).collect()
    }

    /// A begin by each of these ways, on a board where nothing runs, in nanoseconds of a call.
    pub fn begins<const N: usize>(n: u32, member: u32, slot: u32, begins: [Begin; N]) -> Vec<f64> {
        let at = Layout::of(n as usize).block_at(member);
        let scene = Scene { table: used_board(n), back: vec![at..at + 5 + n as usize] };
        let ways = begins.map(|f| move |t: &mut [u32]| f(t, black_box(member), slot, operation(member, slot), &VALUE));
        let after = scene.alike(&ways, 0);
        scene.repeats(&ways[0], &after);
        scene.times(&ways)
    }

    /// A deliver by each of these ways, in nanoseconds of a call.
    pub fn deliveries<const N: usize>(&self, delivers: [Deliver; N], member: u32) -> Vec<f64> {
        let ways = delivers.map(|f| move |t: &mut [u32]| f(t, black_box(member), &mut [0; 9]));
        let after = self.alike(&ways, 0);
        self.repeats(&ways[0], &after);
        self.times(&ways)
    }
}

/// Deliver in phases 1 to 5: what it is, and its scene. What each changes for good is put back: the phase, the message records, the mark.
pub fn each_phase(n: u32, member: u32, slot: u32, mut use_scene: impl FnMut(&str, Scene)) {
    let l = Layout::of(n as usize);
    let (at, mark) = (l.block_at(member), l.entry_at(slot));
    let what = |phase: u32| format!("phase {} of a {}, n = {}", phase, if member == slot { "write" } else { "read" }, n);
    let phase = at..at + 5;
    let messages = at + l.first..at + l.block;
    let mut t = used_board(n);
    begun(&mut t, member, slot);
    let backs = [
        vec![phase.clone()],
        vec![phase.clone(), at + l.first..at + l.second],
        vec![phase.clone(), mark..mark + 2],
        vec![phase.clone(), at + l.pending..at + l.pending + 8, messages.clone()],
    ];
    for (i, back) in backs.into_iter().enumerate() {
        use_scene(&what(i as u32 + 1), Scene { table: t.clone(), back });
        delivered(&mut t, member, 1);
    }
    // Overtaken by a submit of another member.
    let other = if member == 1 { 2 } else { 1 };
    begun(&mut t, member, slot);
    delivered(&mut t, member, 1);
    begun(&mut t, other, slot);
    delivered(&mut t, other, 1);
    delivered(&mut t, member, 2);
    let back = vec![phase, at + l.pending..at + l.pending + 8, messages];
    use_scene(&what(5), Scene { table: t, back });
}
