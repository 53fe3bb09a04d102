//! The tallies of the radios: a value that each counting call hands back.

use crate::decode::{decode, Ending, Lent, Settings};
use crate::refusal::{require, Refusal};
use crate::tally::Tally;

/// So many radios, with numbers from 0.
pub const RADIOS: usize = 64;

/// One tally for each radio.
#[derive(Clone, Debug, PartialEq, Eq)]
pub struct Radios(Vec<Tally>);

impl Radios {
    /// From a list that has five numbers for each radio and may have more
    /// behind them, or refusal 7.
    pub fn from_list(list: &[u32]) -> Result<Self, Refusal> {
        let five = |numbers: &[u32]| Tally::from_list(std::array::from_fn(|i| numbers[i]));
        let tallies: Vec<Tally> = list.chunks_exact(5).take(RADIOS).map(five).collect();
        require(tallies.len() == RADIOS, Refusal::Slice)?;
        Ok(Radios(tallies))
    }

    /// All their numbers, those of radio 0 first.
    pub fn list(&self) -> Vec<u32> {
        self.0.iter().flat_map(Tally::list).collect()
    }

    /// The tally of a radio, or refusal 16.
    pub fn of(&self, radio: u32) -> Result<Tally, Refusal> {
        let tally = self.0.get(radio as usize).copied();
        tally.ok_or(Refusal::Radio)
    }

    /// The same with another tally for one radio.
    fn with(mut self, radio: u32, tally: Tally) -> Self {
        self.0[radio as usize] = tally;
        self
    }
}

/// The decoder for one radio. 16, then 15 for its own tally are tested before
/// everything and hand all tallies back unchanged.
pub fn decode_radio(
    radio: u32,
    tallies: Radios,
    settings: &Settings,
    mask: &[u8],
    llr: &[i16],
    lent: &mut Lent,
) -> (Radios, Result<Ending, Refusal>) {
    let own = match tallies.of(radio) {
        Ok(own) if own.may_count() => own,
        Ok(_) => return (tallies, Err(Refusal::Tally)),
        Err(refusal) => return (tallies, Err(refusal)),
    };
    let answer = decode(settings, mask, llr, lent);
    (tallies.with(radio, own.counting(&answer)), answer)
}
