//! A module: which numbers of pending parameters came.
//!
//! A device keeps them as a number with a bit for each, the second program as
//! a sequence. Few numbers stand for a sequence, and each of these must come.
//! `compare.rs` and `states.rs` include it.

#![forbid(unsafe_code)]

use crate::reference::model::Pending;

/// The numbers that stand for a sequence, by the second program.
pub fn of_sequences() -> Vec<u16> {
    let stands = |number| matches!(Pending::of_number(number), Pending::Sequence(_));
    (0..=u16::MAX).filter(|&number| stands(number)).collect()
}

/// How often each number came.
pub struct Numbers {
    times: Vec<u64>,
    of_sequences: Vec<u16>,
}

impl Numbers {
    pub fn new() -> Numbers {
        Numbers { times: vec![0; 65_536], of_sequences: of_sequences() }
    }

    pub fn count(&mut self, pending: &Pending) {
        self.times[usize::from(pending.number())] += 1;
    }

    fn times(&self, number: u16) -> u64 {
        self.times[usize::from(number)]
    }

    /// The counts as a line, after these words.
    pub fn summary(&self, words: &str) -> String {
        let of_sequences: Vec<u64> = self.of_sequences.iter().map(|&n| self.times(n)).collect();
        let came = |times: &[u64]| times.iter().filter(|&&times| times > 0).count();
        let (met, all) = (came(&of_sequences), of_sequences.len());
        let least = of_sequences.iter().min().unwrap_or(&0);
        let others = came(&self.times) - met;
        let in_others = self.times.iter().sum::<u64>() - of_sequences.iter().sum::<u64>();
        format!(
            "{}: {} of the {} that stand for a sequence, each in {} devices or more; \
             {} others, in {} devices",
            words, met, all, least, others, in_others
        )
    }

    /// The first number of a sequence that never came.
    pub fn missing(&self) -> Option<String> {
        let never = self.of_sequences.iter().find(|&&number| self.times(number) == 0)?;
        Some(format!("{}, which is {:?}", never, Pending::of_number(*never)))
    }
}
