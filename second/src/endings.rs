//! Soft outputs, marks and the criteria that read them.

use crate::code::coded_bits;
use crate::messages::Messages;

/// The four outputs after some iteration, N values each.
#[derive(Clone, Debug, PartialEq, Eq)]
pub struct Outputs {
    pub soft: Vec<i64>,
    pub mark: Vec<u8>,
    pub coded_soft: Vec<i64>,
    pub coded_mark: Vec<u8>,
}

impl Outputs {
    /// Reads the outputs of a block with this mask off its messages.
    pub fn of(mask: &[i64], messages: &Messages) -> Self {
        let values = mask.iter().zip(messages.sums(0));
        let soft: Vec<i64> = values
            .map(|(&value, sum)| soft_output(value, sum, messages.ceiling))
            .collect();
        let coded_soft = messages.sums(messages.left.len() - 1);
        Outputs {
            mark: soft.iter().map(|&v| mark_of(v)).collect(),
            coded_mark: coded_soft.iter().map(|&v| mark_of(v)).collect(),
            soft,
            coded_soft,
        }
    }
}

/// The soft output of a position by its mask value: the sum of its messages
/// where it carries information; a frozen bit is certain.
fn soft_output(value: i64, sum: i64, ceiling: i64) -> i64 {
    match value {
        0 => sum,
        _ => ceiling,
    }
}

/// 0 for a positive value, 1 for a negative one, 2 (a tie) for zero.
pub fn mark_of(value: i64) -> u8 {
    match value {
        1.. => 0,
        0 => 2,
        _ => 1,
    }
}

/// Whether the criterion holds after the last of the iterations in `history`
/// (all outputs so far, the first iteration's first).
pub fn holds(criterion: i64, operand: i64, information: &[usize], history: &[Outputs]) -> bool {
    let Some(now) = history.last() else {
        return false;
    };
    match criterion {
        1 => coded_agree(now),
        2 => now.soft.iter().all(|v| v.abs() >= operand),
        3 => steady(operand as usize, information, history),
        4 => information.iter().all(|&i| now.soft[i].abs() >= operand),
        _ => false,
    }
}

/// Criterion 1: no tie anywhere, and the marks coded give the coded marks.
fn coded_agree(now: &Outputs) -> bool {
    let tie = now.mark.contains(&2) || now.coded_mark.contains(&2);
    !tie && coded_bits(&now.mark) == now.coded_mark
}

/// Criterion 3: at each of the last `width` iterations the marks at the
/// information positions equalled those of the iteration before.
fn steady(width: usize, information: &[usize], history: &[Outputs]) -> bool {
    if history.len() < width + 1 {
        return false;
    }
    let last = &history[history.len() - width - 1..];
    last.windows(2).all(|two| {
        information
            .iter()
            .all(|&i| two[0].mark[i] == two[1].mark[i])
    })
}
