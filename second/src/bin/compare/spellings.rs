//! What the change request says of tidy texts, as properties of the linked
//! library: reading what was written gives the block again, writing a second
//! time changes nothing, texts are written alike exactly when they mean the
//! same, and a text has the report of its tidy form.

use crate::calls::Call;
use crate::contents;
use crate::generate::enough;
use crate::judge::{Difference, Judge};
use crate::memory::Fenced;
use crate::plan::{draw_m, good_plan, Plan, LIMIT, SCALE};
use crate::rng::Rng;
use crate::show::c_program;
use crate::text_calls::{ReadCall, ReportCall, REPORT_ROOM};
use crate::text_draws::{block_of, build_write};
use crate::texts::spelled;
use second::tidy::tidy_text;
use second::LARGEST_LIMIT;

/// Draws a block, spells it in two ways, and another block beside it.
pub fn check(rng: &mut Rng, judge: &mut Judge) -> Result<(), Difference> {
    let m = draw_m(rng);
    let plan = good_plan(rng, m);
    let tidy = written(rng, judge, &plan)?;
    for text in [spelled(rng, &plan), spelled(rng, &plan), tidy.clone()] {
        let block = read(rng, judge, &plan, &text)?;
        let again = written(rng, judge, &block)?;
        require(
            again == tidy,
            "a block is written in two ways",
            &again,
            &tidy,
        )?;
    }
    let text = spelled(rng, &plan);
    let (one, other) = (reported(rng, judge, &text)?, reported(rng, judge, &tidy)?);
    require(
        one == other,
        "a text and its tidy form have two reports",
        &one,
        &other,
    )?;
    let neighbour = neighbour(rng, &plan);
    let beside = written(rng, judge, &neighbour)?;
    require(
        beside != tidy,
        "two blocks are written alike",
        &beside,
        &tidy,
    )?;
    judge.count_event("spellings: blocks read and written again");
    Ok(())
}

/// The tidy text of an accepted block.
fn written(rng: &mut Rng, judge: &mut Judge, plan: &Plan) -> Result<Vec<u8>, Difference> {
    let n = plan.mask.len();
    let needed = tidy_text(&block_of(plan)).len();
    let lengths = [6, n, n, needed].map(|needed| enough(rng, needed));
    let call = build_write(rng, plan, lengths);
    let (answer, after) = judge.check(&call)?;
    accepted(answer, &call)?;
    Ok(after.text_written().to_vec())
}

/// The block that an accepted text is read as, which has to be the plan's.
fn read(rng: &mut Rng, judge: &mut Judge, plan: &Plan, text: &[u8]) -> Result<Plan, Difference> {
    let n = plan.mask.len();
    let lengths = [6, n, n].map(|needed| enough(rng, needed));
    let call = ReadCall {
        text: Fenced::new(rng, text, text.len()),
        settings: Fenced::blank(rng, lengths[0]),
        mask: Fenced::blank(rng, lengths[1]),
        llr: Fenced::blank(rng, lengths[2]),
    };
    let (answer, after) = judge.check(&call)?;
    accepted(answer, &call)?;
    let settings = std::array::from_fn(|i| i64::from(after.settings.slice()[i]));
    let mask = second::code::widen(&after.mask.slice()[..n]);
    let llr = second::code::widen(&after.llr.slice()[..n]);
    if settings != plan.settings || mask != plan.mask || llr != plan.llr {
        let program = c_program(&call);
        return Err(Difference(format!(
            "another block is read than was spelled:\n{program}"
        )));
    }
    Ok(Plan {
        settings,
        mask,
        llr,
    })
}

fn reported(rng: &mut Rng, judge: &mut Judge, text: &[u8]) -> Result<Vec<u8>, Difference> {
    let out_len = enough(rng, REPORT_ROOM);
    let call = ReportCall {
        text: Fenced::new(rng, text, text.len()),
        out: Fenced::blank(rng, out_len),
        written: Fenced::blank(rng, 1),
    };
    let (answer, after) = judge.check_named(&call)?;
    accepted(answer, &call)?;
    contents::check(judge, &call, &after)?;
    Ok(after.report_written().to_vec())
}

/// A block that differs in one number and is accepted as well.
fn neighbour(rng: &mut Rng, plan: &Plan) -> Plan {
    let mut other = plan.clone();
    let place = rng.below(plan.mask.len());
    match rng.below(4) {
        0 => other.settings[LIMIT] = 1 + plan.settings[LIMIT] % LARGEST_LIMIT,
        1 => other.settings[SCALE] = 1 + plan.settings[SCALE] % 16,
        2 => {
            other.mask[place] = 1 - plan.mask[place];
            if !other.mask.contains(&0) {
                // The last information position moves on by one.
                let next = (place + 1) % plan.mask.len();
                other.mask[next] = 0;
            }
        }
        _ => other.llr[place] += if plan.llr[place] > 0 { -1 } else { 1 },
    }
    other
}

fn accepted<C: Call>(answer: u32, call: &C) -> Result<(), Difference> {
    if answer == 0 {
        return Ok(());
    }
    let (name, program) = (call.name(), c_program(call));
    Err(Difference(format!(
        "{name} refuses with {answer}:\n{program}"
    )))
}

fn require(holds: bool, otherwise: &str, one: &[u8], other: &[u8]) -> Result<(), Difference> {
    if holds {
        return Ok(());
    }
    let [one, other] = [one, other].map(String::from_utf8_lossy);
    Err(Difference(format!("{otherwise}:\n{one}\nand\n{other}")))
}
