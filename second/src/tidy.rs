//! Tidy texts: the one spelling of a block.

use crate::code::{require_lengths, widen};
use crate::decode::{check_block, Settings};
use crate::refusal::Refusal;
use crate::text::{accepted, refused, Block, POSITION_NAMES, SETTING_NAMES};

/// Writes the tidy text into a lent slice and gives its length. Refusals 1 to
/// 10 in the decoder's order, then 7 for the text; a refusal writes nothing.
pub fn write(
    settings: &Settings,
    mask: &[u8],
    llr: &[i16],
    text: &mut [u8],
) -> Result<usize, Refusal> {
    let tidy = tidy_text(&tested(settings, mask, llr)?);
    require_lengths(tidy.len(), &[text.len()])?;
    text[..tidy.len()].copy_from_slice(&tidy);
    Ok(tidy.len())
}

/// The block that is handed in, where the decoder refuses none of it.
pub fn tested(settings: &Settings, mask: &[u8], llr: &[i16]) -> Result<Block, Refusal> {
    let n = settings.check()?;
    require_lengths(n, &[mask.len(), llr.len()])?;
    let (mask, llr) = (widen(&mask[..n]), widen(&llr[..n]));
    check_block(settings, &mask, &llr)?;
    Ok(Block {
        settings: *settings,
        mask,
        llr,
    })
}

/// The tidy program as a function from its input to its output.
pub fn tidy(input: &[u8]) -> Vec<u8> {
    match accepted(input) {
        Ok(block) => tidy_text(&block),
        Err(refusal) => refused(refusal),
    }
}

/// The tidy text of any numbers, accepted or not.
pub fn tidy_text(block: &Block) -> Vec<u8> {
    let mut text = [SETTING_NAMES, b"\n"].concat();
    text.extend(line(&block.settings.list()));
    text.extend([POSITION_NAMES, b"\n"].concat());
    for (position, (&frozen, &llr)) in block.mask.iter().zip(&block.llr).enumerate() {
        text.extend(line(&[position as i64, frozen, llr]));
    }
    text
}

/// The values parted by one space, and a byte 10.
fn line(values: &[i64]) -> Vec<u8> {
    let words: Vec<String> = values.iter().map(i64::to_string).collect();
    (words.join(" ") + "\n").into_bytes()
}
