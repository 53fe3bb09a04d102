//! `selftest` for frozen positions.

use crate::selftest::wrong;
use second::decode::decode_wide;
use second::endings::{mark_of, Outputs};
use second::report::print;
use second::text::{accepted, refused};
use second::{Lent, Settings};

/// Puts the faults that are asked for into what an accepted call has left.
pub fn put_faults(settings: &Settings, mask: &[u8], lent: &mut Lent) {
    for (i, &value) in mask[..1 << settings.m].iter().enumerate() {
        spoil(settings, value == 1, i, lent);
    }
}

/// One position with the faults that are asked for.
fn spoil(settings: &Settings, frozen: bool, i: usize, lent: &mut Lent) {
    let ceiling = settings.ceiling as i16;
    let right = (settings.m as usize + 1) << settings.m;
    let sum = (lent.work[i] + lent.work[right + i]).clamp(-ceiling, ceiling);
    // Wrong: information positions are certain too.
    if wrong("information_certain") && !frozen {
        lent.soft[i] = ceiling;
    }
    if !frozen {
        return;
    }
    // Wrong: the sum; the sum where it is not 0; the other sign.
    if wrong("frozen_sum") || (wrong("frozen_sum_not_0") && sum != 0) {
        lent.soft[i] = sum;
    }
    if wrong("frozen_minus") {
        lent.soft[i] = -ceiling;
    }
    // Wrong: the mark of the sum.
    if wrong("frozen_mark") {
        lent.mark[i] = mark_of(i64::from(sum));
    }
    // Wrong: the coded soft output is amended as well, or L(0,i), so that the sum is C.
    if wrong("frozen_coded") {
        lent.coded_soft[i] = ceiling;
    }
    if wrong("frozen_column") {
        lent.work[i] = lent.work[i].max(0);
    }
}

/// Wrong: the report of a text shows the sums of the messages.
pub fn report_of_sums(text: &[u8]) -> Vec<u8> {
    let decoded =
        accepted(text).and_then(|block| decode_wide(&block.settings, &block.mask, &block.llr));
    match decoded {
        Ok(mut decoded) => {
            let nothing_frozen = vec![0; decoded.outputs.soft.len()];
            decoded.outputs = Outputs::of(&nothing_frozen, &decoded.messages);
            print(&decoded).into_bytes()
        }
        Err(refusal) => refused(refusal),
    }
}
