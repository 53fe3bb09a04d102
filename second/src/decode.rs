//! The decoder: tests, iterations, ending, and what is written where.

use crate::code::{block_len, information_positions, require_lengths, widen};
use crate::endings::{holds, Outputs};
use crate::messages::Messages;
use crate::refusal::{require, Refusal};

/// The six settings, as wide as any caller may hand them in.
#[derive(Clone, Copy, Debug, PartialEq, Eq)]
pub struct Settings {
    pub m: i64,
    pub ceiling: i64,
    pub scale: i64,
    pub limit: i64,
    pub criterion: i64,
    pub operand: i64,
}

/// The slices that the decoder writes.
pub struct Lent<'a> {
    pub soft: &'a mut [i16],
    pub mark: &'a mut [u8],
    pub coded_soft: &'a mut [i16],
    pub coded_mark: &'a mut [u8],
    pub work: &'a mut [i16],
}

/// Where and why the decoder ended.
#[derive(Clone, Copy, Debug, PartialEq, Eq)]
pub struct Ending {
    pub iterations: u32,
    pub reason: u32,
}

/// Everything a decoder run leaves behind.
pub struct Decoded {
    pub ending: Ending,
    pub outputs: Outputs,
    pub messages: Messages,
}

/// The limit T runs from 1 to this.
pub const LARGEST_LIMIT: i64 = 64;

impl Settings {
    /// The settings from a list in the order of their names.
    pub fn from_list(list: [i64; 6]) -> Self {
        let [m, ceiling, scale, limit, criterion, operand] = list;
        Settings {
            m,
            ceiling,
            scale,
            limit,
            criterion,
            operand,
        }
    }

    /// The settings as a list in the order of their names.
    pub fn list(&self) -> [i64; 6] {
        [
            self.m,
            self.ceiling,
            self.scale,
            self.limit,
            self.criterion,
            self.operand,
        ]
    }

    /// Refusals 1 to 6, else N.
    pub fn check(&self) -> Result<usize, Refusal> {
        let n = block_len(self.m)?;
        require((1..=2047).contains(&self.ceiling), Refusal::Ceiling)?;
        require((1..=16).contains(&self.scale), Refusal::Scale)?;
        require((1..=LARGEST_LIMIT).contains(&self.limit), Refusal::Limit)?;
        let operands = match self.criterion {
            0 | 1 => 0..=0,
            2 | 4 => 1..=self.ceiling,
            3 => 1..=8,
            _ => return Err(Refusal::Criterion),
        };
        require(operands.contains(&self.operand), Refusal::Operand)?;
        Ok(n)
    }
}

/// Tests a mask and LLRs of exactly N values under settings already tested.
/// Refusals 8 to 10, else the information positions.
pub fn check_block(settings: &Settings, mask: &[i64], llr: &[i64]) -> Result<Vec<usize>, Refusal> {
    let information = information_positions(mask)?;
    let fits = |v: &i64| v.abs() <= settings.ceiling;
    require(llr.iter().all(fits), Refusal::Llr)?;
    Ok(information)
}

/// Tests as `check_block` does, then decodes.
pub fn decode_wide(settings: &Settings, mask: &[i64], llr: &[i64]) -> Result<Decoded, Refusal> {
    let information = check_block(settings, mask, llr)?;
    let m = settings.m as usize;
    let mut messages = Messages::start(m, settings.ceiling, settings.scale, mask, llr);
    let (ending, outputs) = run(settings, mask, &information, &mut messages);
    Ok(Decoded {
        ending,
        outputs,
        messages,
    })
}

/// Iterates until the criterion holds, or to the limit, with outputs by the
/// mask. The ending, and the outputs of its iteration.
pub fn run(
    settings: &Settings,
    mask: &[i64],
    information: &[usize],
    messages: &mut Messages,
) -> (Ending, Outputs) {
    let mut history = Vec::new();
    let mut reason = 2;
    while reason == 2 && (history.len() as i64) < settings.limit {
        messages.iterate();
        history.push(Outputs::of(mask, messages));
        if holds(settings.criterion, settings.operand, information, &history) {
            reason = 1;
        }
    }
    let iterations = history.len() as u32;
    let outputs = history.pop().expect("the limit is at least 1");
    (Ending { iterations, reason }, outputs)
}

/// Decodes into lent slices. Refusals 1 to 10; a refusal writes nothing.
pub fn decode(
    settings: &Settings,
    mask: &[u8],
    llr: &[i16],
    lent: &mut Lent,
) -> Result<Ending, Refusal> {
    let n = settings.check()?;
    let outputs = [lent.soft.len(), lent.coded_soft.len()];
    let marks = [lent.mark.len(), lent.coded_mark.len()];
    require_lengths(n, &[mask.len(), llr.len()])?;
    require_lengths(n, &outputs)?;
    require_lengths(n, &marks)?;
    require_lengths(2 * (settings.m as usize + 1) * n, &[lent.work.len()])?;
    let decoded = decode_wide(settings, &widen(&mask[..n]), &widen(&llr[..n]))?;
    write_out(&decoded, lent);
    Ok(decoded.ending)
}

/// Writes outputs and messages to the first elements of the lent slices.
pub fn write_out(decoded: &Decoded, lent: &mut Lent) {
    let outputs = &decoded.outputs;
    put(lent.soft, &outputs.soft);
    put(lent.coded_soft, &outputs.coded_soft);
    lent.mark[..outputs.mark.len()].copy_from_slice(&outputs.mark);
    lent.coded_mark[..outputs.coded_mark.len()].copy_from_slice(&outputs.coded_mark);
    // L column by column, then R column by column.
    let columns = decoded.messages.left.iter().chain(&decoded.messages.right);
    let n = outputs.soft.len();
    for (place, column) in columns.enumerate() {
        put(&mut lent.work[place * n..], column);
    }
}

/// Writes the values to the first elements of the slice.
pub fn put(target: &mut [i16], values: &[i64]) {
    for (element, &value) in target.iter_mut().zip(values) {
        *element = i16::try_from(value).expect("values lie within the ceiling");
    }
}
