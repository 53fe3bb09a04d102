//! The section "Message and outcome" as a property of two runs, with one
//! antenna or with two.

use crate::calls::{Call, DecodeCall, EncodeCall};
use crate::front_calls::{Front, FrontCall};
use crate::front_draws::{good_front, spoil_factor, spoil_sample};
use crate::generate::*;
use crate::judge::{broken_of_two, Difference, Judge};
use crate::memory::Fenced;
use crate::plan::{draw_m, CEILING};
use crate::rng::Rng;
use crate::show::c_program;

/// What both runs have in common. The first has these samples.
struct Common<F> {
    decode: DecodePlan,
    front: FrontCall<F>,
}

/// One run of front and decoder: its calls as they were left, and its answers.
struct Run<F> {
    front: (u32, FrontCall<F>),
    decode: Option<(u32, DecodeCall)>,
}

/// Right, wrong or tied.
#[derive(PartialEq)]
enum Judged {
    Right,
    Wrong,
    Tied,
}

fn judged(marks: &[u8], bits: &[u8]) -> Vec<Judged> {
    let one = |(&mark, &bit): (&u8, &u8)| match mark {
        2 => Judged::Tied,
        _ if mark == bit => Judged::Right,
        _ => Judged::Wrong,
    };
    marks.iter().zip(bits).map(one).collect()
}

/// Draws one block, runs it twice and compares what comes out.
pub fn check<F: Front>(rng: &mut Rng, judge: &mut Judge) -> Result<(), Difference> {
    let common = draw_common::<F>(rng);
    let (u, block) = draw_block(rng, judge, &common.decode)?;
    let first = run(rng, judge, &common, common.front.clone())?;
    let second = run(rng, judge, &common, negated(&common.front, &block))?;
    if same_numbers(&first, &second) && same_outcome(&first, &second, &u, &block) {
        count(judge, &first, &u);
        return Ok(());
    }
    Err(failure(&first, &second, &u))
}

fn draw_common<F: Front>(rng: &mut Rng) -> Common<F> {
    let m = draw_m(rng);
    let mut decode = good_decode(rng, m);
    let n = decode.plan.mask.len();
    let mut front = good_front::<F>(rng, m, decode.plan.settings[CEILING]);
    if rng.chance(25) {
        match rng.below(4) {
            0 => spoil_factor(rng, &mut front.front),
            1 => spoil_sample(rng, n, &mut front),
            2 => {
                let place = 1 + rng.below(5);
                spoil_setting(rng, place, &mut decode.plan.settings);
            }
            // LLRs are lent to both; or one of the slices behind them.
            _ => decode.lengths[1 + rng.below(6)] = rng.below(n),
        }
    }
    front.ceiling = decode.plan.settings[CEILING] as u32;
    Common { decode, front }
}

/// The samples of every branch negated where the block has a 1.
fn negated<F: Front>(call: &FrontCall<F>, block: &[u8]) -> FrontCall<F> {
    let mut call = call.clone();
    for samples in &mut call.branches {
        for (sample, &bit) in samples.slice_mut().iter_mut().zip(block) {
            *sample = if bit == 1 { -*sample } else { *sample };
        }
    }
    call
}

/// A message, as u, and the block that the coder gives for it.
fn draw_block(
    rng: &mut Rng,
    judge: &mut Judge,
    decode: &DecodePlan,
) -> Result<(Vec<u8>, Vec<u8>), Difference> {
    let mask = bytes(&decode.plan.mask);
    let mut u = vec![0; mask.len()];
    let mut message = Vec::new();
    for (bit, _) in u.iter_mut().zip(&mask).filter(|(_, &frozen)| frozen == 0) {
        *bit = rng.below(2) as u8;
        message.push(*bit);
    }
    let call = EncodeCall {
        m: decode.plan.settings[0] as u32,
        mask: Fenced::new(rng, &mask, mask.len()),
        message: Fenced::new(rng, &message, message.len()),
        block: Fenced::blank(rng, mask.len()),
    };
    let (_, after) = judge.check(&call)?;
    Ok((u, after.block.slice().to_vec()))
}

/// Before each run the LLR slice holds something else.
fn run<F: Front>(
    rng: &mut Rng,
    judge: &mut Judge,
    common: &Common<F>,
    mut front: FrontCall<F>,
) -> Result<Run<F>, Difference> {
    front.llr = Fenced::blank(rng, common.decode.lengths[1]);
    let front = judge.check(&front)?;
    let mut decode = None;
    if front.0 == 0 {
        let mut call = build_decode(rng, &common.decode, None);
        call.llr = front.1.llr.clone();
        decode = Some(judge.check_decode(&call)?);
    }
    Ok(Run { front, decode })
}

/// Where one run is refused, the other is refused with the same number.
fn same_numbers<F>(first: &Run<F>, second: &Run<F>) -> bool {
    let number = |run: &Run<F>| run.decode.as_ref().map(|(answer, _)| *answer);
    first.front.0 == second.front.0 && number(first) == number(second)
}

/// The second run has the values of the first, negated where its bit is 1.
fn negated_by(bits: &[u8], first: &Fenced<i16>, second: &Fenced<i16>) -> bool {
    let pairs = first.slice().iter().zip(second.slice());
    let expected = |value: i16, bit| if bit == 1 { -value } else { value };
    let same = |((&one, &other), &bit): ((&i16, &i16), &u8)| expected(one, bit) == other;
    pairs.zip(bits).all(same)
}

/// The same positions are right, wrong and tied, with values of the same size,
/// at the same iteration for the same reason. The LLRs are negated by the block,
/// as each front is odd.
fn same_outcome<F>(first: &Run<F>, second: &Run<F>, u: &[u8], block: &[u8]) -> bool {
    if first.front.0 == 0 && !negated_by(block, &first.front.1.llr, &second.front.1.llr) {
        return false;
    }
    let (Some((0, one)), Some((0, two))) = (&first.decode, &second.decode) else {
        return true;
    };
    let zeros = vec![0; u.len()];
    one.iterations.slice() == two.iterations.slice()
        && one.reason.slice() == two.reason.slice()
        && negated_by(u, &one.soft, &two.soft)
        && negated_by(block, &one.coded_soft, &two.coded_soft)
        && judged(one.mark.slice(), &zeros) == judged(two.mark.slice(), u)
        && judged(one.coded_mark.slice(), &zeros) == judged(two.coded_mark.slice(), block)
}

fn count<F: Front>(judge: &mut Judge, first: &Run<F>, u: &[u8]) {
    let name = first.front.1.name();
    let mut count = |what| judge.count_event(&format!("property with {name}: {what}"));
    count("pairs of runs");
    let Some((0, decoded)) = &first.decode else {
        count("pairs refused alike");
        return;
    };
    let marks = judged(decoded.mark.slice(), &vec![0; u.len()]);
    if marks.contains(&Judged::Wrong) {
        count("pairs with wrong marks");
    }
    if marks.contains(&Judged::Tied) {
        count("pairs with ties");
    }
}

fn failure<F: Front>(first: &Run<F>, second: &Run<F>, u: &[u8]) -> Difference {
    let mut text = format!("the property fails for u = {u:?}; the calls, as they were left:\n");
    for run in [first, second] {
        text += &told(&run.front);
        text += &run.decode.as_ref().map_or_else(String::new, told);
    }
    let decoded = first.decode.iter();
    text.extend(decoded.map(|(_, call)| broken_of_two(call)));
    Difference(text)
}

fn told<C: Call>((answer, call): &(u32, C)) -> String {
    format!("{} answered {answer}:\n{}", call.name(), c_program(call))
}
