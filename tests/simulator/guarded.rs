// A copy of what is lent to the library, between guards that must stay.

const MARGIN: usize = 41; // odd, so that bytes stand at no even place
pub const GUARD: u32 = 0xA5A5_A5A5;
pub const GUARD_BYTE: u8 = 0xA5;
pub const UNTOUCHED: u32 = 0x5C5C_5C5C; // what stands in the places for results before a call

pub struct Guarded<T> {
    all: Vec<T>,
    guard: T,
}

impl<T: Copy + PartialEq> Guarded<T> {
    pub fn new(inside: &[T], guard: T) -> Guarded<T> {
        let mut all = Vec::with_capacity(inside.len() + 2 * MARGIN);
        all.resize(MARGIN, guard);
        all.extend_from_slice(inside);
        all.resize(inside.len() + 2 * MARGIN, guard);
        Guarded { all, guard }
    }

    pub fn inside(&mut self) -> &mut [T] {
        let end = self.all.len() - MARGIN;
        &mut self.all[MARGIN..end]
    }

    pub fn intact(&self) -> bool {
        let end = self.all.len() - MARGIN;
        self.all[..MARGIN].iter().chain(&self.all[end..]).all(|t| *t == self.guard)
    }
}
