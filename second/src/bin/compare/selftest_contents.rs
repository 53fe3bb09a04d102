//! `selftest` for what memory held before it is written.

use crate::selftest::wrong;
use crate::selftest_criteria::decode_until;
use crate::selftest_scaling::decode_spoilt;
use second::code::widen;
use second::decode::check_block;
use second::endings::{holds, Outputs};
use second::messages::Messages;
use second::{Ending, Lent, Refusal, Settings};
use std::sync::atomic::{AtomicU32, Ordering};

/// What two of the slices held before the call.
pub struct Old {
    mark: Vec<u8>,
    work: Vec<i16>,
}

impl Old {
    pub fn of(lent: &Lent) -> Self {
        Old {
            mark: lent.mark.to_vec(),
            work: lent.work.to_vec(),
        }
    }

    /// What a call that has just ended leaves, with the fault that is asked for.
    pub fn with_faults(
        &self,
        settings: &Settings,
        block: (&[u8], &[i16]),
        lent: &mut Lent,
        right: Ending,
    ) -> Result<Ending, Refusal> {
        let (m, n) = (settings.m as usize, 1 << settings.m);
        // Wrong: the start leaves R(1,0) as it was.
        if wrong("old_message") {
            let message = i64::from(self.work[(m + 2) * n]);
            return decode_spoilt(settings, block, lent, |messages| {
                messages.right[1][0] = message;
            });
        }
        if wrong("old_marks") && settings.criterion == 3 {
            let ending = self.ending_by_marks(settings, block)?;
            return decode_until(ending, settings, block, lent);
        }
        // Wrong: a tie leaves the mark as it was.
        if wrong("old_mark_of_tie") {
            let marks = lent.mark.iter_mut().zip(&self.mark);
            let ties = marks.take(n).filter(|(mark, _)| **mark == 2);
            ties.for_each(|(mark, &old)| *mark = old);
        }
        Ok(right)
    }

    /// Wrong: criterion 3 takes the old marks for those of an iteration before
    /// the first one.
    fn ending_by_marks(
        &self,
        settings: &Settings,
        (mask, llr): (&[u8], &[i16]),
    ) -> Result<Ending, Refusal> {
        let n = 1 << settings.m;
        let (mask, llr) = (widen(&mask[..n]), widen(&llr[..n]));
        let information = check_block(settings, &mask, &llr)?;
        let (m, ceiling, scale) = (settings.m as usize, settings.ceiling, settings.scale);
        let mut messages = Messages::start(m, ceiling, scale, &mask, &llr);
        let mut history = vec![Outputs::of(&mask, &messages)];
        history[0].mark.copy_from_slice(&self.mark[..n]);
        let steady = (1..=settings.limit).find(|_| {
            messages.iterate();
            history.push(Outputs::of(&mask, &messages));
            holds(3, settings.operand, &information, &history)
        });
        Ok(Ending {
            iterations: steady.unwrap_or(settings.limit) as u32,
            reason: if steady.is_some() { 1 } else { 2 },
        })
    }
}

/// The iteration that the last accepted call ended at.
static LAST: AtomicU32 = AtomicU32::new(0);

/// What a call leaves behind the pointer to the iterations, with the faults that
/// are asked for.
pub fn iterations_left(old: u32, answer: &Result<Ending, Refusal>) -> u32 {
    match answer {
        Ok(ending) => {
            LAST.store(ending.iterations, Ordering::Relaxed);
            ending.iterations
        }
        // Wrong: a refusal writes, no iterations or those of the last call.
        Err(_) if wrong("refusal_writes") => 0,
        Err(_) if wrong("refusal_writes_last") => LAST.load(Ordering::Relaxed),
        Err(_) => old,
    }
}
