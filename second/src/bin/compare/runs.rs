//! Runs of calls for random radios in one list: each radio's numbers are the
//! count over its calls, and their sum over all radios is the count over the
//! calls for any of them.

use crate::calls::{Call, Counting, DecodeCall};
use crate::generate::{build_decode, draw_decode};
use crate::judge::{Difference, Judge};
use crate::memory::Fenced;
use crate::radio_draws::{bad_radio, good_radio, numbers_len, NUMBERS};
use crate::rng::Rng;
use crate::show::c_program;
use crate::tallies::{draw_other, Others};
use second::{Tally, RADIOS};

/// A run as far as it has come.
struct Run {
    /// Each radio's tally before the first call.
    start: Vec<Tally>,
    /// These with the answers of the calls counted.
    counted: Vec<Tally>,
    /// The count over all radios, from zeros.
    single: Tally,
    /// The list as the last call left it.
    list: Vec<u32>,
}

/// Half of the runs start with zeros, the others with anything, so that calls
/// are refused with 15 from the beginning or later.
pub fn check(rng: &mut Rng, judge: &mut Judge) -> Result<(), Difference> {
    let others = rng.pick(&[Others::Zeros, Others::Zeros, Others::Usable, Others::Either]);
    let start: Vec<Tally> = (0..RADIOS)
        .map(|_| Tally::from_list(draw_other(rng, others)))
        .collect();
    let mut run = Run {
        counted: start.clone(),
        single: Tally::default(),
        list: start.iter().flat_map(Tally::list).collect(),
        start,
    };
    // Few radios, so that several calls are for the same one.
    let radios: Vec<u32> = (0..1 + rng.below(5)).map(|_| good_radio(rng)).collect();
    for _ in 0..1 + rng.below(40) {
        let call = draw_call(rng, &radios, &run.list);
        make_call(judge, &mut run, &call)?;
    }
    judge.count_event("runs of calls for radios");
    require_sum(&run)
}

fn draw_call(rng: &mut Rng, radios: &[u32], list: &[u32]) -> DecodeCall {
    let m = rng.between(1, 4);
    let plan = draw_decode(rng, m);
    let radio = if rng.chance(10) {
        bad_radio(rng)
    } else {
        rng.pick(radios)
    };
    let few = rng.chance(5);
    let len = numbers_len(rng, radio, few);
    let tallies = Fenced::cut(rng, list, len);
    build_decode(rng, &plan, Some(Counting { radio, tallies }))
}

/// Makes a call of the run and counts its answer.
fn make_call(judge: &mut Judge, run: &mut Run, call: &DecodeCall) -> Result<(), Difference> {
    let (answer, after) = judge.check_decode(call)?;
    judge.count_answer("calls of runs", answer);
    let radio = call.counting.as_ref().map_or(0, |counting| counting.radio);
    if is_counted(call, &run.counted) {
        count(&mut run.counted[radio as usize], answer, &after);
        // The count over all radios is one over calls that know no radio.
        let mut plain = call.clone();
        plain.counting = None;
        let plain_answer = plain.foreign();
        count(&mut run.single, plain_answer, &plain);
    }
    let left = after
        .counting
        .as_ref()
        .map(|counting| counting.tallies.slice());
    if let Some(left) = left.and_then(|left| left.get(..NUMBERS)) {
        run.list = left.to_vec();
        let expected: Vec<u32> = run.counted.iter().flat_map(Tally::list).collect();
        if run.list != expected {
            return Err(failure(call, answer, radio, &run.counted));
        }
    }
    Ok(())
}

/// Whether the call comes as far as to the decoder: no list is short, the radio
/// is there and its tally can be counted on.
fn is_counted(call: &DecodeCall, counted: &[Tally]) -> bool {
    let Some(counting) = &call.counting else {
        return false;
    };
    let tally = counted.get(counting.radio as usize);
    counting.tallies.len() >= NUMBERS
        && call.settings.len() >= 6
        && tally.is_some_and(Tally::may_count)
}

fn count(counted: &mut Tally, answer: u32, after: &DecodeCall) {
    counted.blocks += 1;
    if answer != 0 {
        counted.refusals += 1;
        return;
    }
    counted.iterations += after.iterations.slice()[0];
    match after.reason.slice()[0] {
        1 => counted.reason1 += 1,
        _ => counted.reason2 += 1,
    }
}

/// What all radios together have gained is the count over all of them.
fn require_sum(run: &Run) -> Result<(), Difference> {
    let sums = |list: &[u32]| -> [u64; 5] {
        let of_place = |place| {
            list.iter()
                .skip(place)
                .step_by(5)
                .map(|&v| u64::from(v))
                .sum()
        };
        [0, 1, 2, 3, 4].map(of_place)
    };
    let start: Vec<u32> = run.start.iter().flat_map(Tally::list).collect();
    let (before, after) = (sums(&start), sums(&run.list));
    let single = run.single.list().map(u64::from);
    if (0..5).all(|i| after[i] == before[i] + single[i]) {
        return Ok(());
    }
    Err(Difference(format!(
        "the sum over the radios is not the count over all calls: {before:?} before, {after:?} after, \
         counted {single:?}"
    )))
}

fn failure(call: &DecodeCall, answer: u32, radio: u32, counted: &[Tally]) -> Difference {
    let program = c_program(call);
    let own = counted.get(radio as usize);
    Difference(format!(
        "the tallies are not the counts: answer {answer}, counted {own:?}, in\n{program}"
    ))
}
