// Makes a call on the halves on the library and on the simulator, and
// compares the number, every word and every byte.

use crate::calls::{Call, Lent};
use crate::calls_lib::Library;
use crate::calls_sim::Simulator;
use crate::guarded::{Guarded, GUARD, GUARD_BYTE, UNTOUCHED};
use crate::tally::Tally;

/// The first place where the two differ, and what each has from there on.
fn first_difference<T: PartialEq + std::fmt::Debug>(what: &str, library: &[T], simulator: &[T]) -> Option<String> {
    let place = (0..library.len()).find(|i| library[*i] != simulator[*i])?;
    let end = library.len().min(place + 12);
    Some(format!("{} {} of {}: library {:?}.., simulator {:?}..", what, place, library.len(), &library[place..end], &simulator[place..end]))
}

#[derive(Default)]
pub struct Both {
    pub cases: Tally,
    pub walks: Tally,
    pub walking: bool,
}

impl Both {
    /// The call on both; what was lent becomes what the simulator made of it.
    /// The places for results need only have their length.
    pub fn ask(&mut self, call: &Call, lent: &mut Lent) -> u32 {
        lent.results.fill(UNTOUCHED);
        let before = lent.clone();
        let mut words = Guarded::new(&lent.words, GUARD);
        let mut bytes = Guarded::new(&lent.bytes, GUARD_BYTE);
        let mut given = Guarded::new(&lent.given, GUARD);
        let mut results = Guarded::new(&lent.results, GUARD);

        let by_library = call.run::<Library>(words.inside(), bytes.inside(), given.inside(), results.inside());
        let by_simulator = call.run::<Simulator>(&mut lent.words, &mut lent.bytes, &lent.given, &mut lent.results);

        let differences = [
            first_difference("answer", &[by_library], &[by_simulator]),
            first_difference("word", words.inside(), &lent.words),
            first_difference("byte", bytes.inside(), &lent.bytes),
            first_difference("given word", given.inside(), &lent.given),
            first_difference("result", results.inside(), &lent.results),
        ];
        let fail = |what: &str| -> ! {
            println!("DIFFERENCE: {:?} answered {}: {}", call, by_simulator, what);
            println!("before: {:?}", before);
            println!("by the simulator: {:?}", lent);
            std::process::exit(1);
        };
        if let Some(difference) = differences.iter().flatten().next() {
            fail(difference);
        }
        if !(words.intact() && bytes.intact() && given.intact() && results.intact()) {
            fail("the library wrote outside what was lent");
        }
        if by_simulator != 0 && (lent.words != before.words || lent.bytes != before.bytes) {
            fail("the simulator itself changed something at a refusal");
        }
        let tally = if self.walking { &mut self.walks } else { &mut self.cases };
        tally.count(call, by_simulator, &before, lent);
        by_simulator
    }

    /// A call with places for results of the right length; gives those.
    pub fn words(&mut self, call: &Call, words: &mut Vec<u32>, given: Vec<u32>) -> (u32, Vec<u32>) {
        let results = vec![0; call.lengths().1];
        let mut lent = Lent { words: std::mem::take(words), given, results, ..Lent::default() };
        let answer = self.ask(call, &mut lent);
        *words = lent.words;
        (answer, lent.results)
    }

    pub fn read(&mut self, bytes: &[u8], n: u32) -> (u32, Vec<u32>) {
        let call = Call::Read { n };
        let mut lent = Lent { bytes: bytes.to_vec(), results: vec![0; call.lengths().1], ..Lent::default() };
        (self.ask(&call, &mut lent), lent.results)
    }

    /// The bytes of an output of the given length after the call, and how many were written.
    pub fn write(&mut self, fields: &[u32], n: u32, out_length: usize) -> (u32, Vec<u8>, usize) {
        let mut lent = Lent { bytes: vec![0xC3; out_length], given: fields.to_vec(), results: vec![0], ..Lent::default() };
        let answer = self.ask(&Call::Write { n }, &mut lent);
        let written = lent.results[0] as usize;
        (answer, lent.bytes, written)
    }
}
