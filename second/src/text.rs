//! The text of a block: its format and its reader.

use crate::code::{block_len, require_lengths};
use crate::decode::{check_block, put, Settings};
use crate::refusal::{require, Refusal};

/// The first line of names.
pub const SETTING_NAMES: &[u8] = b"m ceiling scale limit criterion operand";
/// The second line of names.
pub const POSITION_NAMES: &[u8] = b"position frozen llr";
/// More bytes than this are malformed.
pub const MOST_BYTES: usize = 32_768;

/// What a text says: settings, and one mask value and one LLR for each
/// position, as wide as the text may hold them.
#[derive(Clone, Debug, PartialEq, Eq)]
pub struct Block {
    pub settings: Settings,
    pub mask: Vec<i64>,
    pub llr: Vec<i64>,
}

/// Reads a text into lent slices. Refusals 14, 1, 14 and 2 to 6 as `read_wide`
/// and `Settings::check` have them, then 7, 8, 9, 10; a refusal writes nothing.
pub fn read(text: &[u8], mask: &mut [u8], llr: &mut [i16]) -> Result<Settings, Refusal> {
    let block = read_wide(text)?;
    let settings = block.settings;
    let n = settings.check()?;
    require_lengths(n, &[mask.len(), llr.len()])?;
    check_block(&settings, &block.mask, &block.llr)?;
    for (byte, &value) in mask.iter_mut().zip(&block.mask) {
        *byte = value as u8;
    }
    put(llr, &block.llr);
    Ok(settings)
}

/// What a text says, for the functions that need no lent slices: the tests of
/// `read` without 7.
pub fn accepted(text: &[u8]) -> Result<Block, Refusal> {
    let block = read_wide(text)?;
    block.settings.check()?;
    check_block(&block.settings, &block.mask, &block.llr)?;
    Ok(block)
}

/// 14 for the size and the first three lines, then 1, then 14 for the rest.
fn read_wide(text: &[u8]) -> Result<Block, Refusal> {
    require(text.len() <= MOST_BYTES, Refusal::Text)?;
    let (settings, rest) = read_head(text)?;
    let n = block_len(settings.m)?;
    let (mask, llr) = read_positions(n, rest)?;
    Ok(Block {
        settings,
        mask,
        llr,
    })
}

/// The text that stands for a refusal.
pub fn refused(refusal: Refusal) -> Vec<u8> {
    format!("refused\n{}\n", refusal.number()).into_bytes()
}

/// The settings of the first three lines, and the bytes after them.
fn read_head(input: &[u8]) -> Result<(Settings, &[u8]), Refusal> {
    let (names, rest) = take_line(input)?;
    require(names == SETTING_NAMES, Refusal::Text)?;
    let (line, rest) = take_line(rest)?;
    let settings = Settings::from_list(read_values(line)?);
    let (names, rest) = take_line(rest)?;
    require(names == POSITION_NAMES, Refusal::Text)?;
    Ok((settings, rest))
}

/// Mask and LLRs from exactly n lines with nothing after them.
fn read_positions(n: usize, mut rest: &[u8]) -> Result<(Vec<i64>, Vec<i64>), Refusal> {
    let (mut mask, mut llr) = (Vec::new(), Vec::new());
    for expected in 0..n as i64 {
        let (line, after) = take_line(rest)?;
        let [position, frozen, value] = read_values(line)?;
        require(position == expected, Refusal::Text)?;
        mask.push(frozen);
        llr.push(value);
        rest = after;
    }
    require(rest.is_empty(), Refusal::Text)?;
    Ok((mask, llr))
}

/// One line without its byte 10, and what follows that byte.
pub fn take_line(bytes: &[u8]) -> Result<(&[u8], &[u8]), Refusal> {
    let end = bytes.iter().position(|&b| b == b'\n');
    let end = end.ok_or(Refusal::Text)?;
    Ok((&bytes[..end], &bytes[end + 1..]))
}

/// The words of a line, parted by one or more spaces, none at either end.
pub fn words(line: &[u8]) -> Result<impl Iterator<Item = &[u8]>, Refusal> {
    let outer = line.first() == Some(&b' ') || line.last() == Some(&b' ');
    require(!outer, Refusal::Text)?;
    Ok(line.split(|&b| b == b' ').filter(|word| !word.is_empty()))
}

/// Exactly COUNT values.
fn read_values<const COUNT: usize>(line: &[u8]) -> Result<[i64; COUNT], Refusal> {
    let values: Vec<i64> = words(line)?.map(read_value).collect::<Result<_, _>>()?;
    values.try_into().map_err(|_| Refusal::Text)
}

/// An optional minus and 1 to 6 digits.
fn read_value(word: &[u8]) -> Result<i64, Refusal> {
    let (sign, digits) = match word.strip_prefix(b"-") {
        Some(digits) => (-1, digits),
        None => (1, word),
    };
    require((1..=6).contains(&digits.len()), Refusal::Text)?;
    require(digits.iter().all(u8::is_ascii_digit), Refusal::Text)?;
    let size = digits
        .iter()
        .fold(0, |value, digit| 10 * value + i64::from(digit - b'0'));
    Ok(sign * size)
}
