//! Blocks that end by their criterion as late as the largest limit allows.

use crate::plan::{decoded, least_size, Plan, LIMIT, OPERAND};
use crate::rng::Rng;
use second::{Ending, LARGEST_LIMIT};

const LATE: Ending = Ending {
    iterations: LARGEST_LIMIT as u32,
    reason: 1,
};

/// Draws a plan of four positions again, up to a hundred times, until it ends
/// by reason 1 at the largest limit; some have a limit one below it then.
pub fn redraw_ending_late(rng: &mut Rng, plan: &mut Plan) {
    let criterion = rng.pick(&[2, 4]);
    plan.settings = [2, 2047, 16, LARGEST_LIMIT, criterion, 1];
    plan.mask = vec![1, 1, 0, 0];
    for _ in 0..100 {
        plan.llr = (0..4).map(|_| rng.between(-250, 250)).collect();
        // These two speak for the same bit. Where they nearly cancel, the least
        // size of a soft output grows by 1 in an iteration or two.
        plan.llr[3] = rng.pick(&[-1, 1]) - plan.llr[1];
        plan.settings[OPERAND] = least_size(plan, LARGEST_LIMIT);
        if decoded(plan).is_some_and(|decoded| decoded.ending == LATE) {
            plan.settings[LIMIT] -= i64::from(rng.chance(20));
            return;
        }
    }
}
