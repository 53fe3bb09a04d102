//! Blocks whose ending rests on frozen positions, where the messages say
//! something else, or on the last information position, which mostly has the
//! largest size.

use crate::plan::{draw_operand, noisy_block, Plan, CEILING, CRITERION, LIMIT, OPERAND, SCALE};
use crate::rng::Rng;
use second::decode::{decode_wide, run};
use second::messages::Messages;
use second::{Ending, Settings};

/// Where the decoder would end if the criteria read the sums of the messages
/// at frozen positions too; criterion 4 then reads every position. The block is
/// a good one.
pub fn ending_by_sums(settings: &Settings, mask: &[i64], llr: &[i64]) -> Ending {
    let nothing_frozen = vec![0; mask.len()];
    let every_position: Vec<usize> = (0..mask.len()).collect();
    ending_by(settings, (mask, llr), &nothing_frozen, &every_position)
}

/// Where the decoder would end if it read the outputs off by another mask, and
/// took these positions for the ones with information.
pub fn ending_by(
    settings: &Settings,
    (mask, llr): (&[i64], &[i64]),
    outputs_mask: &[i64],
    positions: &[usize],
) -> Ending {
    let m = settings.m as usize;
    let mut messages = Messages::start(m, settings.ceiling, settings.scale, mask, llr);
    run(settings, outputs_mask, positions, &mut messages).0
}

/// Where the decoder would end if the criteria left out the last of several
/// information positions.
fn ending_without_last(settings: &Settings, mask: &[i64], llr: &[i64]) -> Ending {
    let mut positions: Vec<usize> = (0..mask.len()).filter(|&i| mask[i] == 0).collect();
    if positions.len() > 1 {
        positions.pop();
    }
    ending_by(settings, (mask, llr), mask, &positions)
}

/// Draws a plan again, until its ending rests on frozen positions.
pub fn redraw_resting_on_frozen(rng: &mut Rng, plan: &mut Plan) {
    let criterion = rng.pick(&[1, 2, 4]);
    redraw(rng, plan, criterion, ending_by_sums);
}

/// Draws a plan again, until its ending rests on the last information position.
pub fn redraw_resting_on_last(rng: &mut Rng, plan: &mut Plan) {
    let criterion = rng.pick(&[3, 4]);
    redraw(rng, plan, criterion, ending_without_last);
}

/// Draws limit and scale again, then operand, mask and LLRs up to a hundred
/// times, until the plan ends elsewhere than the function says.
fn redraw(
    rng: &mut Rng,
    plan: &mut Plan,
    criterion: i64,
    elsewhere: fn(&Settings, &[i64], &[i64]) -> Ending,
) {
    let n = plan.mask.len();
    let ceiling = plan.settings[CEILING];
    plan.settings[CRITERION] = criterion;
    plan.settings[LIMIT] = rng.between(2, 12);
    if rng.chance(80) {
        // A smaller scale seldom leaves a tie.
        plan.settings[SCALE] = 16;
    }
    for _ in 0..100 {
        plan.settings[OPERAND] = draw_operand(rng, criterion, ceiling);
        plan.mask.fill(1);
        for _ in 0..rng.pick(&[1, 1, 1, 2, 3]) {
            // The better half of the positions.
            plan.mask[n / 2 + rng.below(n / 2)] = 0;
        }
        plan.llr = if rng.chance(50) {
            noisy_block(rng, &plan.mask, ceiling, 0)
        } else {
            (0..n).map(|_| rng.between(-ceiling, ceiling)).collect()
        };
        let settings = Settings::from_list(plan.settings);
        let other = elsewhere(&settings, &plan.mask, &plan.llr);
        let decoded = decode_wide(&settings, &plan.mask, &plan.llr);
        if decoded.is_ok_and(|decoded| decoded.ending != other) {
            return;
        }
    }
}
