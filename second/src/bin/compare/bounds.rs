//! What is counted of decoder calls at the bounds of the limit, and of those at
//! the bounds of a tally's iterations.

use crate::calls::DecodeCall;
use crate::generate::FORMER_LIMIT;
use crate::plan::LIMIT;
use crate::tallies::{is_old, most_iterations};
use second::{Radios, Tally, LARGEST_LIMIT};

/// Names for what is counted of a call, from how it was handed in, its answer
/// and how it was left.
pub fn events(before: &DecodeCall, answer: u32, after: &DecodeCall) -> Vec<String> {
    let events = [
        limit_event(before, answer),
        late_event(answer, after),
        tally_event(before, answer, after),
    ];
    events.into_iter().flatten().collect()
}

/// The next limit to the largest, and to the former largest.
const NEXT: i64 = LARGEST_LIMIT + 1;
const FORMER_NEXT: i64 = FORMER_LIMIT + 1;

/// A limit at a bound that was accepted, or refused for itself.
fn limit_event(call: &DecodeCall, answer: u32) -> Option<String> {
    let limit = i64::from(*call.settings.slice().get(LIMIT)?);
    let told = match limit {
        0 | LARGEST_LIMIT | NEXT | FORMER_LIMIT | FORMER_NEXT => format!("the limit {limit}"),
        NEXT..FORMER_LIMIT => format!("a limit between {NEXT} and {FORMER_LIMIT}"),
        _ => return None,
    };
    matches!(answer, 0 | 4).then(|| format!("calls with {told}: answered {answer}"))
}

/// A call that ended at the largest limit, as its criterion held just then.
fn late_event(answer: u32, after: &DecodeCall) -> Option<String> {
    let (iterations, reason) = (after.iterations.slice()[0], after.reason.slice()[0]);
    let late = answer == 0 && i64::from(iterations) == LARGEST_LIMIT && reason == 1;
    late.then(|| format!("calls ended by reason 1 at iteration {LARGEST_LIMIT}"))
}

/// A tally at the bound of its iterations, or with more of them than calls under
/// the largest limit lead to, and what was counted in it.
fn tally_event(before: &DecodeCall, answer: u32, after: &DecodeCall) -> Option<String> {
    let (own, left) = (own_tally(before)?, own_tally(after)?);
    let most = most_iterations(i64::from(own.reason1) + i64::from(own.reason2));
    let kind = match i64::from(own.iterations) - most {
        1 if answer == 15 => "with one iteration too many",
        0 if is_old(&own) => "with the most iterations",
        _ if is_old(&own) => "that are old",
        _ => return None,
    };
    let counted = match answer {
        _ if own == left => "nothing",
        0 => "an ending",
        _ => "a refusal",
    };
    Some(format!("tallies {kind}: {counted} counted"))
}

/// The tally of the call's radio.
fn own_tally(call: &DecodeCall) -> Option<Tally> {
    let counting = call.counting.as_ref()?;
    let tallies = Radios::from_list(counting.tallies.slice()).ok()?;
    tallies.of(counting.radio).ok()
}
