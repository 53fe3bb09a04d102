//! The calls of the fronts, for one antenna and for two.

use crate::calls::{number, Argument, Call};
use crate::floats::{draw_channel, draw_samples};
use crate::memory::Fenced;
use crate::pairs::{draw_pairs, draw_receiver};
use crate::rng::Rng;
use second::{Channel, Receiver};

/// A call of a front, which is a channel or a receiver with two antennas.
#[derive(Clone)]
pub struct FrontCall<F> {
    pub m: u32,
    pub ceiling: u32,
    pub front: F,
    /// The sample slice of each antenna.
    pub branches: Vec<Fenced<f32>>,
    pub llr: Fenced<i16>,
}

/// What the fronts differ in.
pub trait Front: Copy {
    /// The names of the sample slices.
    const BRANCHES: &'static [&'static str];

    /// The C name.
    fn name(&self) -> &'static str;
    /// Factors or weight in the order of the C interface.
    fn factors(&mut self) -> Vec<&mut f32>;
    /// The answer of the library linked under the C names.
    fn foreign(call: &mut FrontCall<Self>) -> u32;
    /// The answer of the second library.
    fn second(call: &mut FrontCall<Self>) -> u32;
    /// A front that is accepted.
    fn draw(rng: &mut Rng, ceiling: i64) -> Self;
    /// So many finite samples for each branch.
    fn draw_branches(self, rng: &mut Rng, n: usize, ceiling: i64) -> Vec<Vec<f32>>;
}

impl Front for Channel {
    const BRANCHES: &'static [&'static str] = &["samples"];

    fn name(&self) -> &'static str {
        match self {
            Channel::Gaussian(_) => "vedrogne_front_gaussian",
            Channel::Flipping(_) => "vedrogne_front_flipping",
            Channel::Erasing => "vedrogne_front_erasing",
        }
    }

    fn factors(&mut self) -> Vec<&mut f32> {
        match self {
            Channel::Gaussian(number) | Channel::Flipping(number) => vec![number],
            Channel::Erasing => vec![],
        }
    }

    fn foreign(call: &mut FrontCall<Self>) -> u32 {
        crate::foreign::front(call)
    }

    fn second(call: &mut FrontCall<Self>) -> u32 {
        let (m, ceiling) = (i64::from(call.m), i64::from(call.ceiling));
        let samples = call.branches[0].slice();
        let llr = call.llr.slice_mut();
        number(second::front(m, ceiling, call.front, samples, llr))
    }

    fn draw(rng: &mut Rng, ceiling: i64) -> Self {
        draw_channel(rng, ceiling)
    }

    fn draw_branches(self, rng: &mut Rng, n: usize, ceiling: i64) -> Vec<Vec<f32>> {
        vec![draw_samples(rng, n, ceiling, self)]
    }
}

impl Front for Receiver {
    const BRANCHES: &'static [&'static str] = &["first", "second"];

    fn name(&self) -> &'static str {
        "vedrogne_front_two"
    }

    fn factors(&mut self) -> Vec<&mut f32> {
        vec![&mut self.first, &mut self.second]
    }

    fn foreign(call: &mut FrontCall<Self>) -> u32 {
        crate::foreign::front_two(call)
    }

    fn second(call: &mut FrontCall<Self>) -> u32 {
        let (m, ceiling) = (i64::from(call.m), i64::from(call.ceiling));
        let branches = [call.branches[0].slice(), call.branches[1].slice()];
        let llr = call.llr.slice_mut();
        number(second::front_two(m, ceiling, call.front, branches, llr))
    }

    fn draw(rng: &mut Rng, ceiling: i64) -> Self {
        draw_receiver(rng, ceiling)
    }

    fn draw_branches(self, rng: &mut Rng, n: usize, ceiling: i64) -> Vec<Vec<f32>> {
        draw_pairs(rng, n, ceiling, self)
    }
}

impl<F: Front> Call for FrontCall<F> {
    fn name(&self) -> &'static str {
        self.front.name()
    }

    fn arguments(&self) -> Vec<Argument> {
        let mut arguments = vec![Argument::Number(self.m), Argument::Number(self.ceiling)];
        let mut front = self.front;
        let factors = front.factors().into_iter();
        arguments.extend(factors.map(|factor| Argument::Float(factor.to_bits())));
        let branches = self.branches.iter().zip(F::BRANCHES);
        arguments.extend(branches.map(|(samples, name)| Argument::Slice(samples.shown(name))));
        arguments.push(Argument::Slice(self.llr.shown("llr")));
        arguments
    }

    fn foreign(&mut self) -> u32 {
        F::foreign(self)
    }

    fn second(&mut self) -> u32 {
        F::second(self)
    }
}
