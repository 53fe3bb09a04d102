//! One comparison after the other, each with its own generator.

use crate::calls::DecodeCall;
use crate::front_draws::draw_front;
use crate::generate::*;
use crate::judge::{Difference, Judge};
use crate::plan::{draw_m, CRITERION};
use crate::programs::{check_radios, check_report, check_tidy, Programs};
use crate::radio_draws::draw_for_radio;
use crate::rng::Rng;
use crate::text_draws::{draw_read, draw_report, draw_write};
use crate::{agree, antennas, contents, property, runs, spellings};
use second::{Channel, Receiver};

/// Makes comparison number `index` under the seed.
pub fn compare_one(
    seed: u64,
    index: u64,
    programs: &Programs,
    judge: &mut Judge,
) -> Result<(), Difference> {
    let mut rng = Rng::for_comparison(seed, index);
    let rng = &mut rng;
    match rng.below(163) {
        0..=11 => judge.check(&draw_encode(rng)).map(|_| ()),
        12..=19 => judge.check(&draw_read_out(rng)).map(|_| ()),
        20..=41 => judge.check(&draw_front::<Channel>(rng)).map(|_| ()),
        42..=55 => {
            let call = draw_front(rng);
            antennas::check(rng, judge, &call)
        }
        56..=78 => {
            let m = draw_m(rng);
            let plan = draw_decode(rng, m);
            let call = build_decode(rng, &plan, None);
            check_decode(rng, judge, &call)
        }
        79..=89 => check_for_radio(rng, judge),
        90..=95 => property::check::<Channel>(rng, judge),
        96..=99 => property::check::<Receiver>(rng, judge),
        100..=102 => runs::check(rng, judge),
        103..=112 => judge.check(&draw_read(rng)).map(|_| ()),
        113..=122 => judge.check(&draw_write(rng)).map(|_| ()),
        123..=128 => check_report_call(rng, judge),
        129..=130 => spellings::check(rng, judge),
        131..=142 => check_report(rng, judge, programs.report.as_deref()),
        143..=150 => check_tidy(rng, judge, programs.tidy.as_deref()),
        _ => check_radios(rng, judge, programs.radios.as_deref()),
    }
}

/// The call as it is drawn, with other contents in what it is lent to write, and
/// under criteria 2 and 4.
fn check_decode(rng: &mut Rng, judge: &mut Judge, call: &DecodeCall) -> Result<(), Difference> {
    let (_, after) = judge.check_decode(call)?;
    if rng.chance(50) {
        contents::check(judge, call, &after)?;
    }
    // Operands of other criteria are seldom good ones for 2 and 4.
    let percent = match call.settings.slice().get(CRITERION) {
        Some(2 | 4) => 100,
        _ => 25,
    };
    if rng.chance(percent) {
        agree::check_decode(judge, call)?;
    }
    Ok(())
}

fn check_for_radio(rng: &mut Rng, judge: &mut Judge) -> Result<(), Difference> {
    let drawn = draw_for_radio(rng);
    let reasons = drawn.reasons;
    judge.count_event(&format!("calls for a radio, reasons to refuse: {reasons}"));
    check_decode(rng, judge, &drawn.call)
}

fn check_report_call(rng: &mut Rng, judge: &mut Judge) -> Result<(), Difference> {
    let call = draw_report(rng);
    let (_, after) = judge.check_named(&call)?;
    contents::check(judge, &call, &after)?;
    agree::check_report(judge, &call)
}
