// By which ground a call was answered, and how often each came up.

use std::collections::{BTreeMap, BTreeSet};

#[derive(Default)]
pub struct Grounds {
    times: BTreeMap<&'static str, u64>,
}

impl Grounds {
    pub fn count(&mut self, ground: &'static str) {
        self.see(ground, true);
    }

    /// A ground that can occur, whether or not it held this time.
    pub fn see(&mut self, ground: &'static str, held: bool) {
        *self.times.entry(ground).or_default() += held as u64;
    }

    /// Prints them; gives which of those that can occur, the ones seen among them, never did.
    pub fn missing(&self, name: &str, can_occur: &[&str]) -> Vec<String> {
        println!("{} by ground {:?}", name, self.times);
        let all: BTreeSet<&str> = can_occur.iter().chain(self.times.keys()).copied().collect();
        let never = |ground: &&&str| self.times.get(**ground).copied().unwrap_or(0) == 0;
        all.iter().filter(never).map(|ground| format!("{} {}", name, ground)).collect()
    }
}
