//! What a range planner asks for: the options that the curves and the choices share.
use crate::channel::{self, Channel};
use crate::count::{self, Point, Stop};
use crate::masks::{self, Design};
use crate::noise::Random;
use crate::options::Given;
use crate::{decode, lent, Block};
use std::ops::RangeInclusive;

/// The options with a value, save those that make a mask; `help/options.txt` says what they mean.
const OPTIONS: [&str; 13] = [
    "mask", "channel", "times", "ceiling", "scale", "limit", "criteria", "from", "to", "step",
    "errors", "blocks", "seed",
];

/// Multiples of the exact factor. With these every factor and weight is one that the front takes.
const TIMES: RangeInclusive<f64> = 1e-6..=1e6;

/// What a command takes where its options don't say otherwise.
pub struct Usual {
    /// The first and the last point and the step between points, for a channel.
    pub range: fn(Channel) -> [f64; 3],
    pub stop: Stop,
}

/// The settings that a user has to choose well.
#[derive(Clone, Copy)]
pub struct Choice {
    /// The factor, as a multiple of the exact one.
    pub times: f64,
    pub scale: u32,
    pub ceiling: u32,
}

pub struct Plan {
    pub mask: Vec<u8>,
    pub channel: Channel,
    pub choice: Choice,
    pub limit: u32,
    pub criteria: Vec<(u32, u32)>,
    pub points: Vec<f64>,
    pub stop: Stop,
    pub seed: u64,
}

/// The command line of a command that has `more` options than a plan.
pub fn given(arguments: &[String], more: &[&str]) -> Result<Given, String> {
    let values = [&OPTIONS[..], &masks::OPTIONS, more].concat();
    Given::new(arguments, &values, &["natural"])
}

impl Plan {
    pub fn new(given: &Given, usual: &Usual) -> Result<Plan, String> {
        let channel = given.choice("channel", &channel::NAMES)?;
        if channel == Channel::Erasing && given.has("times") {
            return Err("--times: an erasing channel has no factor".to_string());
        }
        let mut stop = Stop {
            errors: usual.stop.errors,
            blocks: given.whole("blocks", usual.stop.blocks, 1..=1_000_000_000)?,
        };
        if given.has("errors") {
            stop.errors = Some(given.whole("errors", 0, 1..=1_000_000_000)?);
        }
        let plan = Plan {
            mask: mask(given)?,
            channel,
            choice: Choice {
                times: given.real("times", 16.0, TIMES)?,
                scale: given.setting("scale", 15)?,
                ceiling: given.setting("ceiling", 2047)?,
            },
            limit: given.setting("limit", 50)?,
            criteria: criteria(given)?,
            points: points(given, channel, (usual.range)(channel))?,
            stop,
            seed: given.whole("seed", 2026, 0..=u64::MAX)?,
        };
        plan.accept("", &plan.choice)?;
        Ok(plan)
    }

    /// Asks the decoder whether it takes a choice. The options that the choice comes from begin with `prefix`.
    pub fn accept(&self, prefix: &str, choice: &Choice) -> Result<(), String> {
        let Choice { scale, ceiling, .. } = choice;
        let m = self.mask.len().ilog2();
        let zeros = vec![0; self.mask.len()];
        for (criterion, operand) in &self.criteria {
            let settings = [m, *ceiling, *scale, self.limit, *criterion, *operand];
            let answer = decode(&settings, &self.mask, &zeros, &mut lent(m as usize));
            let Err(number) = answer else { continue };
            let option = match number {
                2 => format!("--{prefix}ceiling {ceiling}"),
                3 => format!("--{prefix}scale {scale}"),
                4 => format!("--limit {}", self.limit),
                5 => format!("--criteria {criterion}"),
                _ => format!("--criteria {criterion}:{operand} with ceiling {ceiling}"),
            };
            let meaning = meaning(number);
            return Err(format!(
                "{option}: the decoder refuses it with {number}: {meaning}"
            ));
        }
        Ok(())
    }

    /// Counts one point with a mask and a choice. `place` names it on standard error.
    pub fn count(
        &self,
        place: &str,
        (mask, choice): (&[u8], &Choice),
        at: f64,
        stop: Stop,
        random: &mut Random,
    ) -> Point {
        let mut block = Block {
            m: mask.len().ilog2() as usize,
            ceiling: choice.ceiling as i16,
            scale: choice.scale as i16,
            mask: mask.to_vec(),
            llr: vec![0; mask.len()],
        };
        let receive =
            |block: &mut Block| self.channel.receive(at, choice.times, block, &mut *random);
        count::point(place, &mut block, &self.criteria, self.limit, stop, receive)
    }
}

/// What a refusal of the decoder's settings means.
fn meaning(number: u32) -> &'static str {
    match number {
        2 => "the ceiling is outside 1..2047",
        3 => "the scale is outside 1..16",
        4 => "the limit is outside 1..64",
        5 => "the criterion is outside 0..4",
        6 => "the operand is outside its range (0 for 0 and 1, 1..ceiling for 2 and 4, 1..8 for 3)",
        _ => "see include/vedrogne.h",
    }
}

/// The multiples of the exact factor that an option names.
pub fn times(given: &Given, name: &str, usual: &str) -> Result<Vec<f64>, String> {
    let expected = "a list of numbers from 0.000001 to 1000000";
    given.list(name, usual, expected, |item| {
        item.parse().ok().filter(|number| TIMES.contains(number))
    })
}

/// The whole numbers that an option names.
pub fn wholes(given: &Given, name: &str, usual: &str) -> Result<Vec<u32>, String> {
    let expected = "a list of whole numbers between commas";
    given.list(name, usual, expected, |item| item.parse().ok())
}

/// The criteria with their operands.
fn criteria(given: &Given) -> Result<Vec<(u32, u32)>, String> {
    let expected = "a list such as 1,0,2:32 (criterion, or criterion:operand)";
    let criteria = given.list("criteria", "1,0,2:32,3:2,4:32", expected, |item| {
        let (criterion, operand) = item.split_once(':').unwrap_or((item, "0"));
        Some((criterion.parse().ok()?, operand.parse().ok()?))
    })?;
    for (place, (criterion, operand)) in criteria.iter().enumerate() {
        if criteria[..place].contains(&(*criterion, *operand)) {
            return Err(format!("--criteria {criterion}:{operand}: named twice"));
        }
    }
    Ok(criteria)
}

/// The mask in the order that the decoder needs: read from a file, or made.
fn mask(given: &Given) -> Result<Vec<u8>, String> {
    let Some(file) = given.text("mask") else {
        if given.has("natural") {
            return Err("--natural: says how a file is ordered, and --mask names none".to_string());
        }
        return Ok(Design::new(given)?.mask());
    };
    for name in ["information", "design", "method"] {
        if given.has(name) {
            return Err(format!(
                "--{name}: is for a mask to be made, and --mask names a file"
            ));
        }
    }
    let text =
        std::fs::read(file).map_err(|error| format!("--mask {file}: can't be read: {error}"))?;
    let mask = masks::read(&text).map_err(|slip| format!("--mask {file}: {slip}"))?;
    let (m, values) = (mask.len().ilog2(), mask.len());
    let asked = given.whole("m", m, 1..=10)?;
    if asked != m {
        return Err(format!(
            "--m {asked}: --mask {file} has {values} values, and so m is {m}"
        ));
    }
    Ok(if given.has("natural") {
        masks::reversed(&mask)
    } else {
        mask
    })
}

/// The points of a range. Where `usual` is one point, so is a range of which the beginning alone is given.
fn points(given: &Given, channel: Channel, usual: [f64; 3]) -> Result<Vec<f64>, String> {
    let bounds = channel.bounds();
    let from = given.real("from", usual[0], bounds.clone())?;
    let usual_end = if usual[0] == usual[1] { from } else { usual[1] };
    let to = given.real("to", usual_end, bounds)?;
    let step = given.real("step", usual[2], 1e-9..=200.0)?;
    if to < from {
        return Err(format!(
            "--from {from} --to {to}: the range is empty; --from at most --to is expected"
        ));
    }
    let steps = ((to - from) / step + 1e-6).floor();
    if steps >= 1000.0 {
        return Err(format!(
            "--step {step}: at most 1000 points are expected from {from} to {to}"
        ));
    }
    Ok((0..=steps as u32)
        .map(|number| rounded(from + step * f64::from(number), step))
        .collect())
}

/// A sum of steps without the last digits, which come from rounding: 0.3 and not 0.30000000000000004.
fn rounded(sum: f64, step: f64) -> f64 {
    if sum.abs() < 1e-6 * step {
        return 0.0;
    }
    format!("{sum:.11e}").parse().expect("a number")
}

#[cfg(test)]
mod tests {
    use super::*;

    const USUAL: Usual = Usual {
        range: |_| [1.0, 3.5, 0.25],
        stop: Stop {
            errors: Some(100),
            blocks: 20_000,
        },
    };

    fn plan(line: &str) -> Result<Plan, String> {
        let arguments: Vec<String> = line.split_whitespace().map(str::to_string).collect();
        Plan::new(&given(&arguments, &[])?, &USUAL)
    }

    #[test]
    fn defaults_and_ranges() {
        let usual = plan("").unwrap();
        assert_eq!(usual.criteria, [(1, 0), (0, 0), (2, 32), (3, 2), (4, 32)]);
        assert_eq!(
            (usual.points.len(), usual.points[10], usual.seed),
            (11, 3.5, 2026)
        );
        let tenths = plan("--from -0.3 --to 0.3 --step 0.1").unwrap().points;
        assert_eq!(tenths, [-0.3, -0.2, -0.1, 0.0, 0.1, 0.2, 0.3]);
    }

    /// Command lines, each with what its slip begins with.
    const SLIPS: [[&str; 2]; 19] = [
        [
            "--ceiling 2048",
            "--ceiling 2048: the decoder refuses it with 2:",
        ],
        ["--scale 17", "--scale 17: the decoder refuses it with 3:"],
        ["--limit 65", "--limit 65: the decoder refuses it with 4:"],
        [
            "--criteria 1,5",
            "--criteria 5: the decoder refuses it with 5:",
        ],
        [
            "--criteria 3:9",
            "--criteria 3:9 with ceiling 2047: the decoder refuses it with 6:",
        ],
        ["--criteria 1;2", "--criteria 1;2: a list such as"],
        ["--criteria 1,2:32,1:0", "--criteria 1:0: named twice"],
        ["--from 4", "--from 4 --to 3.5: the range is empty"],
        ["--step 0", "--step 0: a number from"],
        ["--step 0.000001", "--step 0.000001: at most 1000 points"],
        [
            "--channel flipping --to 0.5",
            "--to 0.5: a number from 0.000000001 to 0.499999",
        ],
        ["--channel erasing --times 8", "--times: an erasing channel"],
        ["--times 0", "--times 0: a number from"],
        ["--errors 0", "--errors 0: a whole number from 1"],
        ["--natural", "--natural: says how a file is ordered"],
        ["--mask /nowhere", "--mask /nowhere: can't be read"],
        [
            "--mask /dev/null",
            "--mask /dev/null: 0 values; a power of two",
        ],
        [
            "--mask /dev/null --design 1",
            "--design: is for a mask to be made",
        ],
        [
            "--m 3 --information 9",
            "--information 9: a whole number from 1 to 8",
        ],
    ];

    #[test]
    fn slips_are_named() {
        for [line, begin] in SLIPS {
            let slip = plan(line).err().unwrap_or_default();
            assert!(slip.starts_with(begin), "{line}: {slip}");
        }
    }

    #[test]
    fn help_lists_the_options() {
        let help = include_str!("../help/options.txt");
        let names = |word: &'static str| word.strip_prefix("--");
        let mut listed: Vec<&str> = help.split_whitespace().filter_map(names).collect();
        let mut known = [&OPTIONS[..], &masks::OPTIONS, &["natural"]].concat();
        listed.sort();
        known.sort();
        assert_eq!(listed, known);
    }
}
