//! One point of a curve: blocks are received and decoded until enough frames are wrong. A line on standard error says
//! how far it has come.
use crate::{lent, proved, Block};
use std::io::IsTerminal;
use std::time::{Duration, Instant};

/// When a point ends.
#[derive(Clone, Copy)]
pub struct Stop {
    /// After so many frame errors of the criterion named first, where there is a number.
    pub errors: Option<u32>,
    /// After so many blocks in any case.
    pub blocks: u32,
}

/// What one criterion has come to.
#[derive(Clone, Default)]
pub struct Count {
    pub errors: u32,
    pub iterations: u64,
}

/// What all criteria have come to on the same blocks.
pub struct Point {
    pub blocks: u32,
    pub counts: Vec<Count>,
}

/// Counts one point, which `place` names. `receive` fills the LLRs of the next block.
pub fn point(
    place: &str,
    block: &mut Block,
    criteria: &[(u32, u32)],
    limit: u32,
    stop: Stop,
    mut receive: impl FnMut(&mut Block),
) -> Point {
    let mut to = lent(block.m);
    let mut progress = Progress::new(place, stop);
    let mut point = Point {
        blocks: 0,
        counts: vec![Count::default(); criteria.len()],
    };
    let most_errors = stop.errors.unwrap_or(u32::MAX);
    while point.blocks < stop.blocks && point.counts[0].errors < most_errors {
        receive(block);
        for (count, criterion) in point.counts.iter_mut().zip(criteria) {
            count.iterations += u64::from(proved(block, *criterion, limit, &mut to));
            count.errors += u32::from(to.is_wrong(block));
        }
        point.blocks += 1;
        progress.show(&point);
    }
    progress.end(&point);
    point
}

/// The line on standard error: on a terminal overwritten four times a second. It stays for each finished point, save
/// where the point itself is about to be printed on the same terminal.
struct Progress<'a> {
    place: &'a str,
    stop: Stop,
    begun: Instant,
    shown: Instant,
    terminal: bool,
}

impl Progress<'_> {
    fn new(place: &str, stop: Stop) -> Progress<'_> {
        let now = Instant::now();
        Progress {
            place,
            stop,
            begun: now,
            shown: now,
            terminal: std::io::stderr().is_terminal(),
        }
    }

    fn show(&mut self, point: &Point) {
        if self.terminal && self.shown.elapsed() > Duration::from_millis(250) {
            let (blocks, errors) = (point.blocks, point.counts[0].errors);
            let of_errors = match self.stop.errors {
                Some(most) => format!(" of {most}"),
                None => String::new(),
            };
            let (place, most, seconds) =
                (self.place, self.stop.blocks, self.begun.elapsed().as_secs());
            eprint!("\r{place}: {blocks} of {most} blocks, {errors}{of_errors} frame errors, {seconds} s\x1b[K");
            self.shown = Instant::now();
        }
    }

    fn end(&self, point: &Point) {
        let back = if self.terminal { "\r\x1b[K" } else { "" };
        if self.terminal && std::io::stdout().is_terminal() {
            eprint!("{back}");
            return;
        }
        let (blocks, errors) = (point.blocks, point.counts[0].errors);
        let seconds = self.begun.elapsed().as_secs_f64();
        eprintln!(
            "{back}{}: {blocks} blocks, {errors} frame errors, {seconds:.1} s",
            self.place
        );
    }
}

#[cfg(test)]
mod tests {
    use super::*;

    /// A point of blocks of two positions, of which every third is wrong: for criterion 0, then for criterion 1.
    fn counted(errors: Option<u32>, blocks: u32) -> (u32, Vec<u32>) {
        let mut block = Block {
            m: 1,
            ceiling: 31,
            scale: 16,
            mask: vec![1, 0],
            llr: vec![0; 2],
        };
        let mut number = 0;
        let stop = Stop { errors, blocks };
        let point = point("test", &mut block, &[(0, 0), (1, 0)], 5, stop, |block| {
            number += 1;
            block.llr.fill(if number % 3 == 0 { -9 } else { 9 });
        });
        let errors = point.counts.iter().map(|count| count.errors).collect();
        (point.blocks, errors)
    }

    #[test]
    fn a_point_ends() {
        assert_eq!(counted(Some(2), 100), (6, vec![2, 2]));
        assert_eq!(counted(Some(2), 5), (5, vec![1, 1]));
        assert_eq!(counted(None, 30), (30, vec![10, 10]));
    }
}
