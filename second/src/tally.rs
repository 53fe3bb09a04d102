//! The tally of one radio: five counts over its calls.

use crate::decode::Ending;
use crate::refusal::Refusal;
use std::ops::RangeInclusive;

/// A tally has at most so many iterations for each ending. That is more than the
/// largest limit, so that tallies from before the limit was lowered can go on.
pub const MOST_ITERATIONS: u64 = 200;

/// The iterations that so many endings can have, from the fewest to the most.
pub fn iterations_of(endings: u64) -> RangeInclusive<u64> {
    endings..=MOST_ITERATIONS * endings
}

/// The five counts.
#[derive(Clone, Copy, Debug, Default, PartialEq, Eq)]
pub struct Tally {
    pub blocks: u32,
    pub reason1: u32,
    pub reason2: u32,
    pub refusals: u32,
    pub iterations: u32,
}

impl Tally {
    /// The tally from its numbers in the order of their names.
    pub fn from_list([blocks, reason1, reason2, refusals, iterations]: [u32; 5]) -> Self {
        Tally {
            blocks,
            reason1,
            reason2,
            refusals,
            iterations,
        }
    }

    /// Its numbers in the order of their names.
    pub fn list(&self) -> [u32; 5] {
        [
            self.blocks,
            self.reason1,
            self.reason2,
            self.refusals,
            self.iterations,
        ]
    }

    /// Whether a call may be counted; where not, the call is refused with 15.
    pub fn may_count(&self) -> bool {
        let blocks = u64::from(self.blocks);
        let endings = u64::from(self.reason1) + u64::from(self.reason2);
        blocks < 1_000_000
            && blocks == endings + u64::from(self.refusals)
            && iterations_of(endings).contains(&u64::from(self.iterations))
    }

    /// The tally with the answer of one more call counted.
    pub fn counting(mut self, answer: &Result<Ending, Refusal>) -> Self {
        self.blocks += 1;
        match answer {
            Err(_) => self.refusals += 1,
            Ok(ending) => {
                self.iterations += ending.iterations;
                if ending.reason == 1 {
                    self.reason1 += 1;
                } else {
                    self.reason2 += 1;
                }
            }
        }
        self
    }
}
