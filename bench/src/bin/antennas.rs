//! Frame error rate and iterations with one antenna and with two, over the signal-to-noise ratio,
//! as comma-separated values: (1024,512) blocks through the proved front and decoder, under
//! criterion 1 with a limit of 50. Every point has blocks of its own.
use bench::count::{self, Stop};
use bench::fronts::{self, Branch};
use bench::noise::{self, Random};
use bench::options::{print, run, Given};
use bench::{masks, Block};

/// What the receiver hears, at nine ratios Eb/N0.
struct Setup {
    /// On a fading channel each block and branch has an amplitude of its own, which the receiver
    /// knows; on a steady one all blocks have the same.
    fading: bool,
    /// The energy of each branch, on average, where 1 is the energy that Eb/N0 counts; 0 for no
    /// second antenna.
    energies: [f64; 2],
    /// How many times its exact value the second branch's factor is.
    second_factor: f64,
    /// The lowest Eb/N0 in dB.
    lowest: f64,
    /// From one Eb/N0 to the next, in dB.
    step: f64,
}

const fn steady(energies: [f64; 2], second_factor: f64, lowest: f64) -> Setup {
    Setup {
        fading: false,
        energies,
        second_factor,
        lowest,
        step: 0.25,
    }
}

const fn fading(energies: [f64; 2]) -> Setup {
    Setup {
        fading: true,
        energies,
        second_factor: 1.0,
        lowest: 0.0,
        step: 2.0,
    }
}

/// A second branch with a quarter of the first's energy has half its amplitude in the same noise,
/// so the first's factor is 2 times its own. Where signal and noise of the second are amplified
/// until it is as strong as the first, the first's factor is 4 times its own.
const SETUPS: [Setup; 10] = [
    steady([1.0, 0.0], 1.0, 1.0),
    steady([0.5, 0.5], 1.0, 1.0),
    steady([0.8, 0.2], 1.0, 1.0),
    steady([1.0, 1.0], 1.0, -2.0),
    steady([1.0, 0.25], 1.0, 0.0),
    steady([1.0, 0.25], 2.0, 0.5),
    steady([1.0, 0.25], 4.0, 2.0),
    fading([1.0, 0.0]),
    fading([0.5, 0.5]),
    fading([0.8, 0.2]),
];

impl Setup {
    /// What the antennas receive of one block.
    fn branches(&self, db: f64, random: &mut Random) -> Vec<Branch> {
        let variance = noise::variance(db);
        let mut branches = Vec::new();
        for (energy, times) in self.energies.into_iter().zip([1.0, self.second_factor]) {
            if energy > 0.0 {
                let fade = if self.fading { random.rayleigh() } else { 1.0 };
                let amplitude = fade * energy.sqrt();
                branches.push(noise::branch(
                    1024,
                    amplitude,
                    variance,
                    16.0 * times,
                    random,
                ));
            }
        }
        branches
    }

    /// One point. Prints its line.
    fn point(&self, db: f64, stop: Stop, block: &mut Block, random: &mut Random) {
        let channel = if self.fading { "fading" } else { "steady" };
        let [first, second] = self.energies;
        let factor = self.second_factor;
        let place = format!("{channel}, energies {first} and {second}, factor {factor}, {db} dB");
        let point = count::point(&place, block, &[(1, 0)], 50, stop, |block| {
            let branches = self.branches(db, random);
            let refused = fronts::proved(block.m, block.ceiling, &branches, &mut block.llr);
            assert_eq!(refused, 0, "the proved front refuses a block");
        });
        let (blocks, count) = (point.blocks, &point.counts[0]);
        let (errors, iterations) = (count.errors, count.iterations);
        print(&format!(
            "{channel},{first},{second},{factor},{db},{blocks},{errors},{iterations}"
        ));
    }
}

fn antennas(arguments: &[String]) -> Result<(), String> {
    let given = Given::new(arguments, &["blocks", "errors"], &[])?;
    let stop = Stop {
        errors: Some(given.whole("errors", 100, 1..=1_000_000_000)?),
        blocks: given.whole("blocks", 20_000, 1..=1_000_000_000)?,
    };
    let mut block = Block {
        m: 10,
        ceiling: 2047,
        scale: 15,
        mask: masks::half(10),
        llr: vec![0; 1024],
    };
    let mut random = Random(2026);
    print("channel,first,second,second_factor,db,blocks,frame_errors,iterations");
    for setup in &SETUPS {
        for point in 0..9 {
            let db = setup.lowest + setup.step * f64::from(point);
            setup.point(db, stop, &mut block, &mut random);
        }
    }
    Ok(())
}

fn main() {
    run("antennas", antennas);
}
