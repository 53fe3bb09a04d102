//! The calls of the C interface as data, and how the second library answers.

use crate::frozen::uncertain;
use crate::memory::{Fenced, Memory};
use crate::plan::{CEILING, M};
use second::{Ending, Lent, Radios, Refusal, Settings};

#[derive(Clone)]
pub struct EncodeCall {
    pub m: u32,
    pub mask: Fenced<u8>,
    pub message: Fenced<u8>,
    pub block: Fenced<u8>,
}

#[derive(Clone)]
pub struct ReadOutCall {
    pub m: u32,
    pub mask: Fenced<u8>,
    pub bits: Fenced<u8>,
    pub message: Fenced<u8>,
}

/// What a call for a radio is handed before the decoder's own arguments.
#[derive(Clone)]
pub struct Counting {
    pub radio: u32,
    pub tallies: Fenced<u32>,
}

#[derive(Clone)]
pub struct DecodeCall {
    /// Present in a call for a radio.
    pub counting: Option<Counting>,
    pub settings: Fenced<u32>,
    pub mask: Fenced<u8>,
    pub llr: Fenced<i16>,
    pub soft: Fenced<i16>,
    pub mark: Fenced<u8>,
    pub coded_soft: Fenced<i16>,
    pub coded_mark: Fenced<u8>,
    pub work: Fenced<i16>,
    pub iterations: Fenced<u32>,
    pub reason: Fenced<u32>,
}

/// One argument of a C call, or a slice with its length.
pub enum Argument {
    Number(u32),
    Float(u32),
    Slice(Memory),
    Pointer(Memory),
}

/// A call that both sides can answer.
pub trait Call: Clone {
    /// The C name.
    fn name(&self) -> &'static str;
    /// The arguments in the order of the C interface.
    fn arguments(&self) -> Vec<Argument>;
    /// The answer of the library linked under the C names.
    fn foreign(&mut self) -> u32;
    /// The answer of the second library.
    fn second(&mut self) -> u32;

    /// What holds of every accepted call and not of this one as it was left, a
    /// line for each; empty where all holds.
    fn broken(&self) -> String {
        String::new()
    }

    /// Every piece of memory that the call can reach.
    fn memories(&self) -> Vec<Memory> {
        let memory = |argument| match argument {
            Argument::Slice(memory) | Argument::Pointer(memory) => Some(memory),
            _ => None,
        };
        self.arguments().into_iter().filter_map(memory).collect()
    }
}

/// The number that a C call returns.
pub fn number(answer: Result<(), Refusal>) -> u32 {
    answer.map_or_else(Refusal::number, |()| 0)
}

impl Call for EncodeCall {
    fn name(&self) -> &'static str {
        "vedrogne_encode"
    }

    fn arguments(&self) -> Vec<Argument> {
        vec![
            Argument::Number(self.m),
            Argument::Slice(self.mask.shown("mask")),
            Argument::Slice(self.message.shown("message")),
            Argument::Slice(self.block.shown("block")),
        ]
    }

    fn foreign(&mut self) -> u32 {
        crate::foreign::encode(self)
    }

    fn second(&mut self) -> u32 {
        let (mask, message) = (self.mask.slice(), self.message.slice());
        let block = self.block.slice_mut();
        number(second::encode(i64::from(self.m), mask, message, block))
    }
}

impl Call for ReadOutCall {
    fn name(&self) -> &'static str {
        "vedrogne_read_out"
    }

    fn arguments(&self) -> Vec<Argument> {
        vec![
            Argument::Number(self.m),
            Argument::Slice(self.mask.shown("mask")),
            Argument::Slice(self.bits.shown("bits")),
            Argument::Slice(self.message.shown("message")),
        ]
    }

    fn foreign(&mut self) -> u32 {
        crate::foreign::read_out(self)
    }

    fn second(&mut self) -> u32 {
        let (mask, bits) = (self.mask.slice(), self.bits.slice());
        let message = self.message.slice_mut();
        number(second::read_out(i64::from(self.m), mask, bits, message))
    }
}

impl Call for DecodeCall {
    fn name(&self) -> &'static str {
        if self.counting.is_some() {
            "vedrogne_decode_radio"
        } else {
            "vedrogne_decode"
        }
    }

    fn arguments(&self) -> Vec<Argument> {
        let mut arguments = Vec::new();
        if let Some(counting) = &self.counting {
            arguments.push(Argument::Number(counting.radio));
            arguments.push(Argument::Slice(counting.tallies.shown("tallies")));
        }
        let slices = [
            self.settings.shown("settings"),
            self.mask.shown("mask"),
            self.llr.shown("llr"),
            self.soft.shown("soft"),
            self.mark.shown("mark"),
            self.coded_soft.shown("coded_soft"),
            self.coded_mark.shown("coded_mark"),
            self.work.shown("work"),
        ];
        arguments.extend(slices.map(Argument::Slice));
        arguments.push(Argument::Pointer(self.iterations.shown("iterations")));
        arguments.push(Argument::Pointer(self.reason.shown("reason")));
        arguments
    }

    fn foreign(&mut self) -> u32 {
        crate::foreign::decode(self)
    }

    /// The rules of the C interface around the second library: six settings
    /// and the numbers of all radios are needed before everything else.
    fn second(&mut self) -> u32 {
        let Some(settings) = settings_of(self.settings.slice()) else {
            return Refusal::Slice.number();
        };
        let read = |counting: &Counting| Radios::from_list(counting.tallies.slice());
        let answer = match self.counting.as_ref().map(read) {
            None => self.second_plain(&settings),
            Some(Err(refusal)) => return refusal.number(),
            Some(Ok(tallies)) => self.second_for_radio(tallies, &settings),
        };
        match answer {
            Err(refusal) => refusal.number(),
            Ok(ending) => {
                self.iterations.slice_mut()[0] = ending.iterations;
                self.reason.slice_mut()[0] = ending.reason;
                0
            }
        }
    }

    fn broken(&self) -> String {
        let settings = self.settings.slice();
        let mask = &self.mask.slice()[..1 << settings[M]];
        let (soft, mark) = (self.soft.slice(), self.mark.slice());
        uncertain(i64::from(settings[CEILING]), mask, soft, mark)
    }
}

impl DecodeCall {
    fn second_plain(&mut self, settings: &Settings) -> Result<Ending, Refusal> {
        let mut lent = Lent {
            soft: self.soft.slice_mut(),
            mark: self.mark.slice_mut(),
            coded_soft: self.coded_soft.slice_mut(),
            coded_mark: self.coded_mark.slice_mut(),
            work: self.work.slice_mut(),
        };
        second::decode(settings, self.mask.slice(), self.llr.slice(), &mut lent)
    }

    fn second_for_radio(
        &mut self,
        tallies: Radios,
        settings: &Settings,
    ) -> Result<Ending, Refusal> {
        let Some(counting) = &mut self.counting else {
            return self.second_plain(settings);
        };
        let mut lent = Lent {
            soft: self.soft.slice_mut(),
            mark: self.mark.slice_mut(),
            coded_soft: self.coded_soft.slice_mut(),
            coded_mark: self.coded_mark.slice_mut(),
            work: self.work.slice_mut(),
        };
        let (radio, mask, llr) = (counting.radio, self.mask.slice(), self.llr.slice());
        let (tallies, answer) =
            second::decode_radio(radio, tallies, settings, mask, llr, &mut lent);
        let numbers = tallies.list();
        counting.tallies.slice_mut()[..numbers.len()].copy_from_slice(&numbers);
        answer
    }
}

/// The settings from a slice of at least six numbers.
pub fn settings_of(numbers: &[u32]) -> Option<Settings> {
    let list = numbers.first_chunk::<6>()?;
    Some(Settings::from_list(list.map(i64::from)))
}
