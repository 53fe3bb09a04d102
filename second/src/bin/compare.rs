//! Compares the library linked under the C names, and the programs that report
//! on a block, tidy its text and summarize radios, with the second library, on
//! random calls and texts.
//!
//! ```text
//! compare SEED COUNT [REPORT [TIDY [RADIOS]]]   comparisons 0 to COUNT-1
//! compare --one SEED INDEX [REPORT ...]         that comparison alone, its calls printed
//! compare --loud SEED COUNT [REPORT ...]        tells each index first, to find a crash
//! ```
//!
//! Without a program its comparisons are left out.
//! A seed and a count fix every call. A difference is printed with the whole
//! call, and the program exits with 1. It is built with the environment
//! variable VEDROGNE_LIB naming the archive, or with the feature `selftest`.

#[path = "compare/agree.rs"]
mod agree;
#[path = "compare/antennas.rs"]
mod antennas;
#[path = "compare/bounds.rs"]
mod bounds;
#[path = "compare/calls.rs"]
mod calls;
#[path = "compare/comparing.rs"]
mod comparing;
#[path = "compare/contents.rs"]
mod contents;
#[path = "compare/damage.rs"]
mod damage;
#[path = "compare/floats.rs"]
mod floats;
#[cfg(any(archive, feature = "selftest"))]
#[path = "compare/foreign.rs"]
mod foreign;
#[cfg(not(any(archive, feature = "selftest")))]
#[path = "compare/unlinked.rs"]
mod foreign;
#[path = "compare/front_calls.rs"]
mod front_calls;
#[path = "compare/front_draws.rs"]
mod front_draws;
#[path = "compare/frozen.rs"]
mod frozen;
#[path = "compare/generate.rs"]
mod generate;
#[path = "compare/judge.rs"]
mod judge;
#[path = "compare/late.rs"]
mod late;
#[path = "compare/lists.rs"]
mod lists;
#[cfg_attr(not(any(archive, feature = "selftest")), allow(dead_code))]
#[path = "compare/memory.rs"]
mod memory;
#[path = "compare/pairs.rs"]
mod pairs;
#[path = "compare/plan.rs"]
mod plan;
#[path = "compare/programs.rs"]
mod programs;
#[path = "compare/property.rs"]
mod property;
#[path = "compare/radio_draws.rs"]
mod radio_draws;
#[path = "compare/resting.rs"]
mod resting;
#[path = "compare/rng.rs"]
mod rng;
#[path = "compare/runs.rs"]
mod runs;
#[cfg(feature = "selftest")]
#[path = "compare/selftest.rs"]
mod selftest;
#[cfg(feature = "selftest")]
#[path = "compare/selftest_antennas.rs"]
mod selftest_antennas;
#[cfg(feature = "selftest")]
#[path = "compare/selftest_contents.rs"]
mod selftest_contents;
#[cfg(feature = "selftest")]
#[path = "compare/selftest_criteria.rs"]
mod selftest_criteria;
#[cfg(feature = "selftest")]
#[path = "compare/selftest_frozen.rs"]
mod selftest_frozen;
#[cfg(feature = "selftest")]
#[path = "compare/selftest_limits.rs"]
mod selftest_limits;
#[cfg(feature = "selftest")]
#[path = "compare/selftest_radios.rs"]
mod selftest_radios;
#[cfg(feature = "selftest")]
#[path = "compare/selftest_scaling.rs"]
mod selftest_scaling;
#[cfg(feature = "selftest")]
#[path = "compare/selftest_texts.rs"]
mod selftest_texts;
#[path = "compare/show.rs"]
mod show;
#[path = "compare/spellings.rs"]
mod spellings;
#[path = "compare/tallies.rs"]
mod tallies;
#[path = "compare/text_calls.rs"]
mod text_calls;
#[path = "compare/text_draws.rs"]
mod text_draws;
#[path = "compare/texts.rs"]
mod texts;

use judge::Judge;
use programs::Programs;
use std::ops::Range;
use std::process::ExitCode;

struct Request {
    one: bool,
    loud: bool,
    seed: u64,
    indices: Range<u64>,
    programs: Programs,
}

fn read_request() -> Option<Request> {
    let mut words: Vec<String> = std::env::args().skip(1).collect();
    let one = words.first().is_some_and(|word| word == "--one");
    let loud = words.first().is_some_and(|word| word == "--loud");
    if one || loud {
        words.remove(0);
    }
    if !(2..=5).contains(&words.len()) {
        return None;
    }
    let seed = words[0].parse().ok()?;
    let number: u64 = words[1].parse().ok()?;
    let indices = if one {
        number..number.checked_add(1)?
    } else {
        0..number
    };
    Some(Request {
        one,
        loud,
        seed,
        indices,
        programs: Programs::from_list(&words[2..]),
    })
}

fn main() -> ExitCode {
    let Some(request) = read_request() else {
        eprintln!("usage: compare [--loud] SEED COUNT [REPORT [TIDY [RADIOS]]]");
        eprintln!("       compare --one SEED INDEX [REPORT [TIDY [RADIOS]]]");
        return ExitCode::from(2);
    };
    let (seed, programs) = (request.seed, &request.programs);
    println!("seed {seed}, comparisons {:?}", request.indices);
    let mut judge = Judge::default();
    judge.show = request.one;
    for index in request.indices {
        if request.loud {
            eprintln!("comparison {index}");
        }
        if let Err(difference) = comparing::compare_one(seed, index, programs, &mut judge) {
            println!("DIFFERENCE in comparison {index} of seed {seed}");
            let given = programs.list().join(" ");
            println!("again with: compare --one {seed} {index} {given}");
            println!("{}", difference.0);
            return ExitCode::from(1);
        }
    }
    judge.print();
    println!("no difference");
    ExitCode::SUCCESS
}
