//! A bounded list of a timeline's entries: what comes again in the same order
//! is folded, and of the rest the middle is added up.

use super::{Entry, Tally};

/// Entries that are kept from the start and from the end.
pub const FIRST: usize = 24;
pub const LAST: usize = 36;
/// Entries that may come again together: so many times LAST holds them, and
/// they are folded.
const MOST_PERIOD: usize = LAST / FEW_TIMES;
/// How often entries stand in the list before they are folded: a few of them
/// once more than many, so that no fold takes the place of one or two.
const TIMES: usize = 4;
const FEW_TIMES: usize = 3;

#[derive(Default)]
pub struct List {
    first: Vec<Entry>,
    /// What was between the first and the last, if anything was.
    left: Option<(u64, Tally)>,
    last: Vec<Entry>,
}

impl List {
    pub fn push(&mut self, entry: Entry) {
        self.last.push(entry);
        // A fold may complete another one about it.
        while (1..=MOST_PERIOD).any(|period| self.fold(period)) {}
        if self.last.len() > LAST {
            self.drop_one();
        }
    }

    pub fn finish(self) -> Vec<Entry> {
        let left = self.left.map(|(clock, tally)| Entry::Left { clock, tally });
        self.first.into_iter().chain(left).chain(self.last).collect()
    }

    /// The last so many entries show the same as those a period before.
    fn comes_again(&self, count: usize, period: usize) -> bool {
        let alike = |at: usize| self.last[at].is_alike(&self.last[at - period]);
        let end = self.last.len();
        end >= count + period && (end - count..end).rev().all(alike)
    }

    /// Folds what has come again, if its last entry is the list's: leaves the
    /// first and the last time, and an `Again` between.
    fn fold(&mut self, period: usize) -> bool {
        if !self.comes_again(period, period) {
            return false;
        }
        let end = self.last.len();
        // The last time but one has an `Again` before it, or the first time.
        if let Some(at) = end.checked_sub(2 * period + 1) {
            let taken: Vec<Entry> = match &self.last[at] {
                Entry::Again { entries, .. } if *entries == period => {
                    self.last.drain(at + 1..end - period).collect()
                }
                _ => Vec::new(),
            };
            if !taken.is_empty() {
                count_in(&mut self.last[at], &taken);
                return true;
            }
        }
        let times = if period * TIMES <= LAST { TIMES } else { FEW_TIMES };
        if !self.comes_again((times - 1) * period, period) {
            return false;
        }
        let second = end - (times - 1) * period;
        let (start, clock) = (self.last[second - period].clock(), self.last[second].clock());
        let mut again = Entry::Again {
            clock,
            start,
            period: clock - start,
            entries: period,
            times: 0,
            tally: Tally::default(),
        };
        count_in(&mut again, &self.last[second..end - period]);
        self.last.splice(second..end - period, [again]);
        true
    }

    /// The oldest of the last entries becomes one of the first, or is added to
    /// what is left out.
    fn drop_one(&mut self) {
        let entry = self.last.remove(0);
        if self.first.len() < FIRST && self.left.is_none() {
            self.first.push(entry);
        } else {
            let (_, tally) = self.left.get_or_insert((entry.clock(), Tally::default()));
            tally.add(&entry);
        }
    }
}

/// Counts whole periods into an `Again`.
fn count_in(again: &mut Entry, taken: &[Entry]) {
    if let Entry::Again { entries, times, tally, .. } = again {
        *times += (taken.len() / *entries) as u64;
        taken.iter().for_each(|entry| tally.add(entry));
    }
}
