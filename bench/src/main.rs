//! The proved decoder, coder and fronts against others, side by side in one run: each round runs every one of them
//! once, and a figure is the best or the median of all rounds.
use bench::coder::{self, Code, Coder};
use bench::fronts::{self, Branch, Front};
use bench::masks::{self, half};
use bench::noise::{self, Random};
use bench::{
    arbitrary, baseline, blocks, lent, noisy, plain, proved, proved_for_radio, sse2, sse2_signed,
};
use bench::{Block, Decoder, Lent};
use std::time::Instant;

/// The decoders that leave everything a call leaves, under criteria 0 and 1.
const DECODERS: [(&str, Decoder); 4] = [
    ("proved (Rattle)", |block, criterion, limit, to| {
        proved(block, (criterion, 0), limit, to)
    }),
    ("baseline (C -O3)", baseline),
    ("SSE2 by hand (C)", sse2),
    ("SSE2, signed product (C)", sse2_signed),
];

/// Those that leave soft outputs alone, under criterion 0.
type Soft = fn(&Block, u32, &mut [i16], &mut [i16]);
const SLOW: [(&str, Soft); 2] = [
    ("plain (Rust)", plain::decode),
    ("block loops (Rust)", blocks::decode),
];

/// A round is so many calls at m = 10, each of as many iterations as a call can have. At a smaller m it is more calls,
/// so that a round is long beside what the clock takes.
const CALLS: u32 = 4;
const LARGEST_LIMIT: u32 = 64;

/// Best and median time in nanoseconds of each of N, over interleaved rounds. A round of warming up goes before.
fn times<const N: usize>(rounds: usize, mut run: impl FnMut(usize)) -> [(f64, f64); N] {
    let mut times = [(); N].map(|()| Vec::new());
    for _ in 0..=rounds {
        for (which, times) in times.iter_mut().enumerate() {
            let begin = Instant::now();
            run(which);
            times.push(begin.elapsed().as_nanos() as f64);
        }
    }
    times.map(|mut times| {
        times.remove(0);
        times.sort_by(f64::total_cmp);
        (times[0], times[times.len() / 2])
    })
}

/// The best times alone, for one of `count` things that are run in a round.
fn best<const N: usize>(rounds: usize, count: usize, run: impl FnMut(usize)) -> [f64; N] {
    times(rounds, run).map(|(best, _)| best / count as f64)
}

/// What a decoder is lent, with a value everywhere that it has to replace.
fn lent_with(m: usize, value: u8) -> Lent {
    let mut to = lent(m);
    for list in [&mut to.soft, &mut to.coded_soft, &mut to.work] {
        list.fill(value.into());
    }
    for list in [&mut to.mark, &mut to.coded_mark] {
        list.fill(value);
    }
    to
}

/// The decoders end at the same iteration and leave the same soft outputs, marks, coded ones and workspace, each
/// whatever its own lists held before.
fn compare(block: &Block, criterion: u32, limit: u32) {
    let mut before = 100;
    let left = DECODERS.map(|(_, decode)| {
        before += 1;
        let mut to = lent_with(block.m, before);
        (decode(block, criterion, limit, &mut to), to)
    });
    let same = left.iter().all(|one| *one == left[0]);
    assert!(same, "the decoders disagree");
}

/// The same for blocks that are not timed, of every m: with noise, and with everything drawn at random.
fn compare_many(random: &mut Random) {
    let mut count = 0;
    for m in 1..=10 {
        let mask = half(m);
        for round in 0..40 {
            let noise = noisy(&mask, f64::from(round % 5), random);
            let limit = 1 + random.below(12) as u32;
            for block in [noise, arbitrary(m, random)] {
                compare(&block, round % 2, limit);
                count += 1;
            }
        }
    }
    println!("{count} blocks of m = 1 to 10 under criteria 0 and 1: the decoders agree\n");
}

/// Best and median time of one iteration under criterion 0 for each of the decoders and, after them, of the slow ones.
fn iteration_times<const N: usize>(block: &Block, rounds: usize) -> [(f64, f64); N] {
    compare(block, 0, LARGEST_LIMIT);
    let calls = CALLS << (10 - block.m);
    let mut to = lent(block.m);
    let figures = times(rounds, |which| {
        for _ in 0..calls {
            if let Some((_, decode)) = DECODERS.get(which) {
                decode(block, 0, LARGEST_LIMIT, &mut to);
            } else {
                let (_, decode) = SLOW[which - DECODERS.len()];
                decode(block, LARGEST_LIMIT, &mut to.soft, &mut to.work);
            }
        }
    });
    let iterations = f64::from(calls * LARGEST_LIMIT);
    figures.map(|(best, median)| (best / iterations, median / iterations))
}

/// The slow decoders leave the proved one's soft outputs.
fn compare_slow(block: &Block) {
    let (mut one, mut other) = (lent(block.m), lent(block.m));
    proved(block, (0, 0), LARGEST_LIMIT, &mut one);
    for (_, decode) in SLOW {
        decode(block, LARGEST_LIMIT, &mut other.soft, &mut other.work);
        assert!(one.soft == other.soft, "the decoders disagree");
    }
}

/// A time's ratios to the times of the decoders after the proved one, as columns.
fn ratios(time: f64, times: &[f64]) -> String {
    let others = &times[1..DECODERS.len()];
    others
        .iter()
        .map(|other| format!(" {:7.2}", time / other))
        .collect()
}

fn iteration_table(random: &mut Random) {
    println!(
        "One iteration at m = 10 under criterion 0 (ns; best and median of 60 rounds of {CALLS} calls of \
         {LARGEST_LIMIT} iterations; ratio of the best to that of the baseline, of SSE2 by hand, of SSE2 with the \
         signed product)"
    );
    let block = noisy(&half(10), 2.5, random);
    compare_slow(&block);
    let figures = iteration_times::<{ DECODERS.len() + SLOW.len() }>(&block, 60);
    let bests = figures.map(|(best, _)| best);
    let names = DECODERS.map(|(name, _)| name).into_iter();
    for (name, (best, median)) in names.chain(SLOW.map(|(name, _)| name)).zip(figures) {
        let ratios = ratios(best, &bests);
        println!("{name:24} {best:9.0} {median:9.0}{ratios}");
    }
    println!("plain to proved {:.1}", bests[DECODERS.len()] / bests[0]);
}

fn growth_table(random: &mut Random) {
    println!(
        "\nOne iteration by m (ns; best of 60 rounds, of the two in Rust 6, of {CALLS} calls of {LARGEST_LIMIT} \
         iterations at m = 10, twice the calls at each m below): proved, baseline, SSE2 by hand, SSE2 with the signed \
         product, plain, block loops, proved to baseline, proved to SSE2 by hand, proved to signed product"
    );
    for m in 1..=10 {
        let block = noisy(&half(m), 2.5, random);
        compare_slow(&block);
        let bests = iteration_times::<{ DECODERS.len() }>(&block, 60).map(|(best, _)| best);
        let all = iteration_times::<{ DECODERS.len() + SLOW.len() }>(&block, 6);
        let slow = all[DECODERS.len()..].iter().map(|(best, _)| *best);
        let columns: String = bests
            .into_iter()
            .chain(slow)
            .map(|best| format!(" {best:8.1}"))
            .collect();
        println!("m = {m:2}{columns}{}", ratios(bests[0], &bests));
    }
}

fn block_table(random: &mut Random) {
    println!(
        "\n(1024,512) blocks at 2.5 dB under criterion 1, limit 50 (best of 15 rounds of 300 blocks): blocks per \
         second, ns an iteration, iterations, frame errors, time to that of the baseline, of SSE2 by hand, of SSE2 \
         with the signed product"
    );
    let mask = half(10);
    let blocks: Vec<Block> = (0..300).map(|_| noisy(&mask, 2.5, random)).collect();
    blocks.iter().for_each(|block| compare(block, 1, 50));
    let mut to = lent(10);
    let (mut iterations, mut errors) = (0, 0);
    for block in &blocks {
        iterations += proved(block, (1, 0), 50, &mut to);
        errors += usize::from(to.is_wrong(block));
    }
    let count = blocks.len();
    let bests = best::<{ DECODERS.len() }>(15, count, |which| {
        for block in &blocks {
            DECODERS[which].1(block, 1, 50, &mut to);
        }
    });
    let each = f64::from(iterations) / count as f64;
    for ((name, _), time) in DECODERS.iter().zip(bests) {
        let (per_second, iteration) = (1e9 / time, time / each);
        let ratios = ratios(time, &bests);
        println!("{name:24} {per_second:8.0} {iteration:8.0} {each:6.2} {errors:5}{ratios}");
    }
}

/// Criteria 2 and 4 on the same blocks, which both end at the same iterations.
fn criteria_table(random: &mut Random) {
    println!(
        "\nBlocks at m = 10 under criteria 2 and 4, operand 32, limit 50 (best of 25 rounds of 100 blocks): \
         iterations, ns an iteration under 2, under 4, ratio"
    );
    // fewer information positions can be decoded with more noise
    for (information, db) in [(512, 2.5), (32, -8.0)] {
        let mask = masks::gaussian(10, information, db);
        let blocks: Vec<Block> = (0..100).map(|_| noisy(&mask, db, random)).collect();
        let mut to = [lent(10), lent(10)];
        let (mut best, mut iterations) = ([f64::MAX; 2], [0u32; 2]);
        for _ in 0..25 {
            iterations = [0; 2];
            for (which, criterion) in [(2, 32), (4, 32)].into_iter().enumerate() {
                let begin = Instant::now();
                for block in &blocks {
                    iterations[which] += proved(block, criterion, 50, &mut to[which]);
                }
                best[which] = best[which].min(begin.elapsed().as_secs_f64());
            }
            assert!(
                to[0] == to[1] && iterations[0] == iterations[1],
                "the criteria disagree"
            );
        }
        let all = f64::from(iterations[0]);
        println!(
            "K = {information:3} {:6.2} {:8.0} {:8.0} {:6.3}",
            all / blocks.len() as f64,
            best[0] * 1e9 / all,
            best[1] * 1e9 / all,
            best[1] / best[0]
        );
    }
}

/// A call of one iteration without a tally and with one, where what counting costs shows most.
fn radio_table(random: &mut Random) {
    println!(
        "\nCalls of one iteration, criterion 0 (ns a call, best of 400 rounds of 200 calls): \
         vedrogne_decode, vedrogne_decode_radio, ratio"
    );
    for m in [3, 10] {
        let block = noisy(&half(m), 2.5, random);
        let mut to = [lent(m), lent(m)];
        let mut best = [f64::MAX; 2];
        for _ in 0..400 {
            let mut tallies = [0; 320];
            let begin = Instant::now();
            for _ in 0..200 {
                proved(&block, (0, 0), 1, &mut to[0]);
            }
            let middle = Instant::now();
            for call in 0..200 {
                proved_for_radio(call % 64, &mut tallies, &block, (0, 0), 1, &mut to[1]);
            }
            best[0] = best[0].min((middle - begin).as_secs_f64());
            best[1] = best[1].min(middle.elapsed().as_secs_f64());
            let counted: u32 = tallies.iter().step_by(5).sum();
            assert!(to[0] == to[1] && counted == 200, "the calls disagree");
        }
        let [plain, tallied] = best.map(|seconds| seconds * 1e9 / 200.0);
        println!(
            "m = {m:2} {plain:8.1} {tallied:8.1} {:6.3}",
            tallied / plain
        );
    }
}

/// What one antenna or several receive of 50 (1024,512) blocks at 2.5 dB. Each has the same part of
/// the energy, so that the LLRs of a block are as noisy with two as with one.
fn received(antennas: u32, random: &mut Random) -> Vec<Vec<Branch>> {
    let amplitude = f64::from(antennas).recip().sqrt();
    let mut branch = |_| noise::branch(1024, amplitude, noise::variance(2.5), 16.0, random);
    (0..50)
        .map(|_| (0..antennas).map(&mut branch).collect())
        .collect()
}

/// The fronts leave the same LLRs, and those that test refuse a sample that isn't finite and then write nothing.
fn compare_fronts(blocks: &[Vec<Branch>]) {
    let llrs = |front: Front, branches: &[Branch]| {
        let mut llr = vec![4095; 1024];
        (front(10, 2047, branches, &mut llr), llr)
    };
    for branches in blocks {
        let proved = llrs(fronts::proved, branches);
        let same = [fronts::baseline, fronts::tested].map(|front| llrs(front, branches) == proved);
        assert!(same == [true; 2] && proved.0 == 0, "the fronts disagree");
    }
    let mut branches: Vec<Branch> = blocks[0].clone();
    for unfit in [f32::NAN, f32::INFINITY, f32::NEG_INFINITY] {
        branches.last_mut().unwrap().samples[1023] = unfit;
        for front in [fronts::proved, fronts::tested] {
            let refused = llrs(front, &branches) == (12, vec![4095; 1024]);
            assert!(refused, "a front takes {unfit}");
        }
    }
}

/// The fronts for one antenna and for two, beside loops in C.
fn front_table(random: &mut Random) {
    println!(
        "\nFronts, (1024,512) blocks at 2.5 dB (ns a block, best of 400 rounds of 50 blocks): proved, baseline, \
         baseline that tests its samples, proved to baseline, proved to the one that tests"
    );
    let mut llr = vec![0; 1024];
    let fronts: [Front; 3] = [fronts::proved, fronts::baseline, fronts::tested];
    let mut front_line = |name: &str, antennas| {
        let blocks = received(antennas, random);
        compare_fronts(&blocks);
        let best = best(400, blocks.len(), |which| {
            for branches in &blocks {
                fronts[which](10, 2047, branches, &mut llr);
            }
        });
        let [proved, baseline, tested] = best;
        let (to_baseline, to_tested) = (proved / baseline, proved / tested);
        println!(
            "{name:24} {proved:8.0} {baseline:8.0} {tested:8.0} {to_baseline:6.2} {to_tested:6.2}"
        );
        best
    };
    let gaussian = front_line("vedrogne_front_gaussian", 1);
    let two = front_line("vedrogne_front_two", 2);
    let [proved, baseline, tested] = [0, 1, 2].map(|which| two[which] / gaussian[which]);
    println!("two to gaussian: proved {proved:.2}, baseline {baseline:.2}, the one that tests {tested:.2}");
}

/// One of the coder's functions beside a plain loop. Both leave the same, or the run stops.
fn coder_line(name: &str, code: &Code, functions: [Coder; 2], inputs: &[Vec<u8>], length: usize) {
    let mut to = [vec![2; length], vec![2; length]];
    for input in inputs {
        for (function, to) in functions.iter().zip(&mut to) {
            function(code, input, to);
        }
        assert!(to[0] == to[1], "the coders disagree");
    }
    let [proved, baseline] = best(400, inputs.len(), |which| {
        for input in inputs {
            functions[which](code, input, &mut to[which]);
        }
    });
    let ratio = proved / baseline;
    println!("{name:24} {proved:8.0} {baseline:8.0} {ratio:6.2}");
}

/// The coder and the read-out beside plain loops in C, which test nothing.
fn coder_table(random: &mut Random) {
    println!(
        "\nCoder and read-out, (1024,512) blocks (ns a block, best of 400 rounds of 50 blocks): proved, baseline, ratio"
    );
    let code = Code::new(half(10));
    let mut bits = |length| (0..length).map(|_| random.below(2) as u8).collect();
    let messages: Vec<Vec<u8>> = (0..50).map(|_| bits(512)).collect();
    let blocks: Vec<Vec<u8>> = (0..50).map(|_| bits(1024)).collect();
    let encoders = [coder::encode, coder::plain_encode];
    let readers = [coder::read_out, coder::plain_read_out];
    coder_line("vedrogne_encode", &code, encoders, &messages, 1024);
    coder_line("vedrogne_read_out", &code, readers, &blocks, 512);
}

fn main() {
    let mut random = Random(2026);
    compare_many(&mut Random(1));
    iteration_table(&mut random);
    growth_table(&mut random);
    block_table(&mut random);
    criteria_table(&mut random);
    radio_table(&mut random);
    coder_table(&mut Random(2));
    front_table(&mut random);
}
