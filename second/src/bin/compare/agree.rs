//! Criteria 2 and 4 agree: two calls that differ in the criterion, 2 in one and
//! 4 in the other, and in what the memory holds that they are lent to write,
//! have the same answer and write the same, and each keeps the rest.

use crate::calls::{Call, DecodeCall};
use crate::contents::{Lending, Made};
use crate::judge::{headed, require_of_two, Difference, Judge};
use crate::plan::CRITERION;
use crate::programs::answer_of;
use crate::text_calls::ReportCall;

/// A call with an argument that names the criterion.
pub trait Named: Lending {
    /// Puts another criterion into the argument, where it has a place for one.
    fn put(&mut self, criterion: u8);
}

impl Named for DecodeCall {
    fn put(&mut self, criterion: u8) {
        if let Some(place) = self.settings.slice_mut().get_mut(CRITERION) {
            *place = u32::from(criterion);
        }
    }
}

impl Named for ReportCall {
    /// The text stays as long as it was: a longer word gets zeros.
    fn put(&mut self, criterion: u8) {
        if let Some([zeros @ .., last]) = setting_word(self.text.slice_mut(), CRITERION) {
            zeros.fill(b'0');
            *last = b'0' + criterion;
        }
    }
}

/// The word of a text that stands at the place of a setting, if there is one.
pub fn setting_word(text: &mut [u8], place: usize) -> Option<&mut [u8]> {
    let mut lines = text.split_mut(|&b| b == b'\n');
    let words = lines.nth(1)?.split_mut(|&b| b == b' ');
    words.filter(|word| !word.is_empty()).nth(place)
}

/// The call under criterion 2, and under 4 with other contents in all that it is
/// lent to write.
fn pair<C: Named>(call: &C) -> [C; 2] {
    let (mut two, mut four) = (call.clone(), call.clone());
    two.put(2);
    four.put(4);
    four.turn();
    [two, four]
}

/// What the linked library does otherwise under criterion 4 than under 2, a
/// line for each; empty where the criteria agree.
pub fn disagreement<C: Named>(call: &C) -> String {
    let [two, four] = pair(call).map(Made::of);
    let told = two.unkept() + &two.otherwise(&four, "criterion 4");
    headed(
        "criteria 2 and 4 disagree (under 4 every bit of written memory is turned)",
        told,
    )
}

/// Makes a decoder call under both criteria, whatever its own is; both calls
/// for a radio start with the same tallies, and have to leave the same. Either
/// one is compared with the second library, so that its two answers agree as
/// well, and this finds what both libraries have wrong alike.
pub fn check_decode(judge: &mut Judge, call: &DecodeCall) -> Result<(), Difference> {
    let [two, four] = pair(call);
    let (answer, after) = judge.check_decode(&two)?;
    judge.check_decode(&four)?;
    require_of_two(&disagreement(&two), &two)?;
    judge.count_answer(
        &format!("criteria 2 and 4: pairs of {}", call.name()),
        answer,
    );
    if answer == 0 && after.reason.slice()[0] == 1 {
        judge.count_event("criteria 2 and 4: pairs ended by reason 1");
        if after.iterations.slice()[0] > 1 {
            judge.count_event("criteria 2 and 4: pairs ended by reason 1 after iteration 1");
        }
    }
    Ok(())
}

/// The same for a report, with either criterion in its text.
pub fn check_report(judge: &mut Judge, call: &ReportCall) -> Result<(), Difference> {
    let [two, four] = pair(call);
    let (answer, after) = judge.check_named(&two)?;
    judge.check_named(&four)?;
    require_of_two(&disagreement(&two), &two)?;
    if answer == 0 {
        let number = answer_of(after.report_written());
        judge.count_answer("criteria 2 and 4: pairs of reports", number);
    }
    Ok(())
}
