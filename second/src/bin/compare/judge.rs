//! Makes calls on both sides, compares everything and counts the answers.

use crate::agree::{disagreement, Named};
use crate::bounds::events;
use crate::calls::{Call, DecodeCall};
use crate::contents::dependence;
#[cfg(feature = "selftest")]
use crate::selftest::both_wrong;
use crate::show::{c_program, differences};
use std::collections::BTreeMap;

/// A difference, with all that is needed to make the call again.
pub struct Difference(pub String);

/// Lines under a heading; nothing where there are none.
pub fn headed(heading: &str, lines: String) -> String {
    if lines.is_empty() {
        return lines;
    }
    format!("{heading}:\n{lines}")
}

/// A difference where something is told of a call.
pub fn require_none<C: Call>(told: &str, call: &C) -> Result<(), Difference> {
    if told.is_empty() {
        return Ok(());
    }
    let program = c_program(call);
    Err(Difference(format!("{told}in\n{program}")))
}

/// What does not hold of two calls like this one: that criteria 2 and 4 agree,
/// and that it makes no difference what written memory held.
pub fn broken_of_two<C: Named>(call: &C) -> String {
    disagreement(call) + &dependence(call)
}

/// A difference where something has been found of two calls like this one, with
/// all that does not hold of them.
pub fn require_of_two<C: Named>(found: &str, call: &C) -> Result<(), Difference> {
    if found.is_empty() {
        return Ok(());
    }
    require_none(&broken_of_two(call), call)
}

#[derive(Default)]
pub struct Judge {
    /// Print every call before it is made.
    pub show: bool,
    /// By kind of call: how often each answer number came up.
    answers: BTreeMap<String, [u64; 17]>,
    /// By criterion: endings by reason 1, by reason 2; and of the former those
    /// after iteration 1, and those among these at the limit.
    endings: [[u64; 4]; 5],
    /// By m: decoder calls that ended.
    sizes: [u64; 11],
    /// Other things worth counting.
    events: BTreeMap<String, u64>,
}

/// Both sides are wrong in the self-test alone.
#[cfg(not(feature = "selftest"))]
fn both_wrong() -> bool {
    false
}

impl Judge {
    pub fn count_answer(&mut self, kind: &str, answer: u32) {
        let row = self.answers.entry(kind.to_string()).or_default();
        row[answer as usize] += 1;
    }

    pub fn count_event(&mut self, name: &str) {
        *self.events.entry(name.to_string()).or_default() += 1;
    }

    /// Makes the call on both sides. The answer, and the call as the foreign
    /// side left it, where nothing differs and what is said of it holds.
    pub fn check<C: Call>(&mut self, call: &C) -> Result<(u32, C), Difference> {
        if self.show {
            println!("{}", c_program(call));
        }
        let (mut theirs, mut ours) = (call.clone(), call.clone());
        let their_answer = theirs.foreign();
        let our_answer = if both_wrong() {
            ours.foreign()
        } else {
            ours.second()
        };
        let (one, other) = ((their_answer, &theirs), (our_answer, &ours));
        let mut told = differences(one, other, "second library");
        if their_answer == 0 && our_answer == 0 {
            told += &theirs.broken();
        }
        if !told.is_empty() {
            let program = c_program(call);
            return Err(Difference(format!(
                "{}:\n{told}the call as a C program:\n{program}",
                call.name()
            )));
        }
        self.count_answer(call.name(), our_answer);
        Ok((our_answer, theirs))
    }

    /// `check` for a call that names the criterion: beside a difference it
    /// tells what does not hold of two calls like this one.
    pub fn check_named<C: Named>(&mut self, call: &C) -> Result<(u32, C), Difference> {
        let with_two = |Difference(told)| Difference(told + &broken_of_two(call));
        self.check(call).map_err(with_two)
    }

    /// `check_named` for the decoder, which also counts how it ended.
    pub fn check_decode(&mut self, call: &DecodeCall) -> Result<(u32, DecodeCall), Difference> {
        let (answer, after) = self.check_named(call)?;
        for name in events(call, answer, &after) {
            self.count_event(&name);
        }
        if answer == 0 {
            let settings = after.settings.slice();
            let row = &mut self.endings[settings[4] as usize];
            row[after.reason.slice()[0] as usize - 1] += 1;
            let later = after.reason.slice()[0] == 1 && after.iterations.slice()[0] > 1;
            row[2] += u64::from(later);
            row[3] += u64::from(later && after.iterations.slice()[0] == settings[3]);
            self.sizes[settings[0] as usize] += 1;
        }
        Ok((answer, after))
    }

    /// Prints all counts.
    pub fn print(&self) {
        println!("answers by kind (number: how often):");
        for (kind, row) in &self.answers {
            let shown = (0..row.len()).filter(|&i| row[i] > 0);
            let shown: Vec<String> = shown.map(|i| format!("{i}: {}", row[i])).collect();
            let total: u64 = row.iter().sum();
            println!("  {kind} {total} ({})", shown.join(", "));
        }
        for (criterion, row) in self.endings.iter().enumerate() {
            println!(
                "  criterion {criterion}: {} endings by reason 1 ({} after iteration 1, \
                 {} of these at the limit), {} by reason 2",
                row[0], row[2], row[3], row[1]
            );
        }
        println!(
            "  decoder calls that ended, m 1 to 10: {:?}",
            &self.sizes[1..]
        );
        for (name, count) in &self.events {
            println!("  {name}: {count}");
        }
    }
}
