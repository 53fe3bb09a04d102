//! What memory held before it is written makes no difference: two calls that
//! differ in nothing else have the same answer and write the same, and each
//! keeps the rest of what it was lent.

use crate::agree::Named;
use crate::calls::{Call, DecodeCall};
use crate::judge::{headed, require_of_two, Difference, Judge};
use crate::memory::Memory;
use crate::plan::M;
use crate::show::{answer_difference, memory_differences};
use crate::text_calls::ReportCall;
use second::code::block_len;
use std::ops::Range;

/// A call that is lent memory to be written. The tallies of a radio are none of
/// it: what they hold is read.
pub trait Lending: Call {
    /// Turns every bit of the memory.
    fn turn(&mut self);
    /// This call, lent the memory as another one has left it.
    fn lent_from(&self, left: &Self) -> Self;
    /// How many elements of the named slice a call with this answer writes, from
    /// how it was left. Tallies count as written, all of them.
    fn elements_written(&self, answer: u32, name: &str) -> usize;
}

impl Lending for DecodeCall {
    fn turn(&mut self) {
        self.soft.turn();
        self.mark.turn();
        self.coded_soft.turn();
        self.coded_mark.turn();
        self.work.turn();
        self.iterations.turn();
        self.reason.turn();
    }

    fn lent_from(&self, left: &Self) -> Self {
        DecodeCall {
            counting: self.counting.clone(),
            settings: self.settings.clone(),
            mask: self.mask.clone(),
            llr: self.llr.clone(),
            ..left.clone()
        }
    }

    fn elements_written(&self, answer: u32, name: &str) -> usize {
        let m = self.settings.slice().get(M).map_or(0, |&m| i64::from(m));
        // None where a wrong library accepts another m.
        let n = block_len(m).unwrap_or(0);
        match name {
            "tallies" => usize::MAX,
            _ if answer != 0 => 0,
            "soft" | "mark" | "coded_soft" | "coded_mark" => n,
            "work" => 2 * (m as usize + 1) * n,
            "iterations" | "reason" => 1,
            _ => 0,
        }
    }
}

impl Lending for ReportCall {
    fn turn(&mut self) {
        self.out.turn();
        self.written.turn();
    }

    fn lent_from(&self, left: &Self) -> Self {
        ReportCall {
            text: self.text.clone(),
            ..left.clone()
        }
    }

    fn elements_written(&self, answer: u32, name: &str) -> usize {
        match name {
            _ if answer != 0 => 0,
            "out" => self.written.slice()[0],
            "written" => 1,
            _ => 0,
        }
    }
}

/// A call as it was handed in, the linked library's answer, and the call as it
/// was left.
pub struct Made<C> {
    before: C,
    answer: u32,
    after: C,
}

impl<C: Lending> Made<C> {
    pub fn of(before: C) -> Self {
        let mut after = before.clone();
        let answer = after.foreign();
        Made {
            before,
            answer,
            after,
        }
    }

    fn written(&self, memory: &Memory) -> Range<usize> {
        let count = self.after.elements_written(self.answer, memory.name);
        memory.start..memory.start + count.min(memory.len)
    }

    /// Where the call has not kept what it was lent and does not write, a line
    /// for each place.
    pub fn unkept(&self) -> String {
        let before = self.before.memories().into_iter();
        let unkept = |(before, after): (Memory, Memory)| {
            let written = self.written(&after);
            let kept = (0..after.elements.len()).filter(|place| !written.contains(place));
            memory_differences(&after, &before, kept, "lent")
        };
        before.zip(self.after.memories()).map(unkept).collect()
    }

    /// What another call does otherwise: its answer, what it writes, and what it
    /// has not kept.
    pub fn otherwise(&self, other: &Self, origin: &str) -> String {
        let mut text = answer_difference(self.answer, other.answer, origin);
        let pairs = self.after.memories().into_iter();
        for (one, another) in pairs.zip(other.after.memories()) {
            text += &memory_differences(&one, &another, self.written(&one), origin);
        }
        text + &other.unkept()
    }
}

fn turned<C: Lending>(call: &C) -> C {
    let mut call = call.clone();
    call.turn();
    call
}

/// What the linked library does otherwise where written memory held something
/// else, a line for each; empty where that makes no difference.
pub fn dependence<C: Lending>(call: &C) -> String {
    let first = Made::of(call.clone());
    let turned = Made::of(turned(call));
    let again = Made::of(call.lent_from(&first.after));
    let told = first.unkept()
        + &first.otherwise(&turned, "every bit of it turned")
        + &first.otherwise(&again, "made again in what was left");
    headed("what written memory held makes a difference", told)
}

/// Makes a call once more with every bit of written memory turned, and in what
/// it has left, where old marks and messages look like its own. Both are compared
/// with the second library, so this finds what both libraries have wrong alike.
pub fn check<C: Named>(judge: &mut Judge, call: &C, after: &C) -> Result<(), Difference> {
    let (answer, _) = judge.check_named(&turned(call))?;
    judge.check_named(&call.lent_from(after))?;
    require_of_two(&dependence(call), call)?;
    judge.count_answer(&format!("other contents: {}", call.name()), answer);
    Ok(())
}
