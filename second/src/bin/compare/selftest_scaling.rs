//! `selftest` for the scaling of f.

use crate::selftest::wrong;
use second::code::widen;
use second::decode::{check_block, run, write_out, Decoded};
use second::messages::Messages;
use second::{Ending, Lent, Refusal, Settings};

/// The scaling with the fault that is asked for.
fn wrong_scaling() -> Option<fn(i64, bool) -> i64> {
    // Wrong: the signed product is shifted, which rounds down.
    if wrong("signed_product_shifted") {
        return Some(|product, negative| (if negative { -product } else { product }) >> 4);
    }
    // Wrong: the size is rounded to the nearest.
    if wrong("rounded_to_the_nearest") {
        return Some(|product, negative| second::messages::sixteenth(product + 8, negative));
    }
    None
}

/// What a call that has just ended leaves, with the fault that is asked for.
pub fn with_faults(
    settings: &Settings,
    block: (&[u8], &[i16]),
    lent: &mut Lent,
    right: Ending,
) -> Result<Ending, Refusal> {
    let Some(scaling) = wrong_scaling() else {
        return Ok(right);
    };
    decode_spoilt(settings, block, lent, |messages| messages.scaling = scaling)
}

/// Decodes once more from a start that has been changed.
pub fn decode_spoilt(
    settings: &Settings,
    (mask, llr): (&[u8], &[i16]),
    lent: &mut Lent,
    change: impl FnOnce(&mut Messages),
) -> Result<Ending, Refusal> {
    let n = 1 << settings.m;
    let (mask, llr) = (widen(&mask[..n]), widen(&llr[..n]));
    let information = check_block(settings, &mask, &llr)?;
    let m = settings.m as usize;
    let mut messages = Messages::start(m, settings.ceiling, settings.scale, &mask, &llr);
    change(&mut messages);
    let (ending, outputs) = run(settings, &mask, &information, &mut messages);
    let decoded = Decoded {
        ending,
        outputs,
        messages,
    };
    write_out(&decoded, lent);
    Ok(ending)
}
