//! The front for two antennas: pairs of samples worked by hand, what holds of
//! every pair, and the order of refusals.

use crate::*;

/// Both factors 1, so that a sample is its product.
const PLAIN: Receiver = with_factors(1.0, 1.0);

/// Both factors as large as they can be.
const LARGEST: Receiver = with_factors(f32::MAX, f32::MAX);

const fn with_factors(first: f32, second: f32) -> Receiver {
    Receiver { first, second }
}

/// The LLR of one pair of samples, as the first of a block of two.
fn llr(ceiling: i64, receiver: Receiver, pair: [f32; 2]) -> i16 {
    let mut llr = [9; 2];
    let branches = pair.map(|sample| [sample, 0.0]);
    let answer = front_two(1, ceiling, receiver, [&branches[0], &branches[1]], &mut llr);
    assert_eq!(answer, Ok(()));
    assert_eq!(llr[1], 0);
    llr[0]
}

/// The pair has this LLR; with both samples negated it has the opposite one,
/// and with the branches exchanged the same.
fn assert_llr(ceiling: i64, receiver: Receiver, pair: [f32; 2], expected: i16) {
    let exchanged = with_factors(receiver.second, receiver.first);
    let [first, second] = pair;
    assert_eq!(llr(ceiling, receiver, pair), expected, "{pair:?}");
    assert_eq!(llr(ceiling, receiver, [-first, -second]), -expected);
    assert_eq!(llr(ceiling, exchanged, [second, first]), expected);
    assert_eq!(llr(ceiling, exchanged, [-second, -first]), -expected);
}

/// The next float towards zero, and the next one away from it.
fn beside(value: f32) -> [f32; 2] {
    [-1, 1].map(|step| f32::from_bits(value.to_bits().wrapping_add_signed(step)))
}

#[test]
fn each_branch_has_its_factor() {
    let receiver = with_factors(1.5, 0.25);
    // 1.5 + 0.25, 3 - 3, 1.5 - 0.5, 0 + 0.5
    for (pair, expected) in [
        ([1.0, 1.0], 2),
        ([2.0, -12.0], 0),
        ([1.0, -2.0], 1),
        ([0.0, 2.0], 1),
    ] {
        assert_llr(31, receiver, pair, expected);
    }
}

#[test]
fn halves_and_the_ceiling() {
    for (pair, expected) in [
        ([0.25, 0.25], 1),
        ([0.25, 0.125], 0),
        ([1.0, 0.5], 2),
        ([4000.0, -3997.5], 3),
        ([16.0, 14.5], 31),
        ([16.0, 14.25], 30),
        ([16.0, 15.0], 31),
        ([31.0, 31.0], 31),
        ([4096.0, -4065.5], 31),
        ([4096.0, -4065.75], 30),
    ] {
        assert_llr(31, PLAIN, pair, expected);
    }
    assert_llr(1, PLAIN, [1.0, -0.5], 1);
    assert_llr(2047, PLAIN, [1024.0, 1022.0], 2046);
    assert_llr(2047, PLAIN, [1024.0, 1023.0], 2047);
}

#[test]
fn products_are_cut_before_they_are_added() {
    for (pair, expected) in [
        ([10_000.0, -4095.0], 1),
        ([10_000.0, -10_000.0], 0),
        ([10_000.0, -5000.0], 0),
        ([5000.0, -4066.0], 30),
        ([5000.0, -4065.0], 31),
        ([5000.0, 5000.0], 31),
        ([100.0, -90.0], 10),
    ] {
        assert_llr(31, PLAIN, pair, expected);
    }
    // The next float below 4096 is not cut, the next one above is.
    let [below, above] = beside(4096.0);
    for (size, expected) in [(below, 0), (4096.0, 1), (above, 1)] {
        assert_llr(31, PLAIN, [size, -4095.5], expected);
    }
    let [half_below, half_above] = beside(4095.5);
    for (size, expected) in [(half_below, 1), (4095.5, 1), (half_above, 0)] {
        assert_llr(31, PLAIN, [above, -size], expected);
    }
}

#[test]
fn a_product_beyond_the_format_is_cut() {
    for (pair, expected) in [
        ([f32::MAX, -f32::MAX], 0),
        ([f32::MAX, f32::MAX], 2047),
        ([f32::MAX, 0.0], 2047),
        ([2.0, -2.0], 0),
    ] {
        assert_llr(2047, LARGEST, pair, expected);
    }
    let receiver = with_factors(f32::MAX, 1.0);
    for (pair, expected) in [
        ([f32::MAX, -4095.0], 1),
        ([f32::MAX, -4096.0], 0),
        ([f32::MAX, -f32::MAX], 0),
    ] {
        assert_llr(31, receiver, pair, expected);
    }
}

#[test]
fn the_sum_is_rounded() {
    let below_half = 0.499_999_97;
    assert_eq!(below_half, beside(0.5)[0]);
    // Half of the distance to 0.5: a tie, which goes to 0.5.
    let half_step = 2_f32.powi(-26);
    assert_llr(31, PLAIN, [below_half, 0.0], 0);
    assert_llr(31, PLAIN, [below_half, half_step], 1);
    assert_llr(31, PLAIN, [below_half, beside(half_step)[0]], 0);
    // From 0.5 down: a tie goes back to 0.5, more does not.
    assert_llr(31, PLAIN, [0.5, -half_step], 1);
    assert_llr(31, PLAIN, [0.5, -beside(half_step)[1]], 0);
}

#[test]
fn each_product_is_rounded() {
    // The product of 1 - 2^-24 and 1 + 2^-23 is nearly 1 + 2^-24, rounded 1.
    let receiver = with_factors(1.0 + f32::EPSILON, 1.0);
    let sample = beside(1.0)[0];
    assert_eq!(sample * receiver.first, 1.0);
    // The exact one would leave less than a half of 1.5.
    assert!(1.5 - f64::from(sample) * f64::from(receiver.first) < 0.5);
    assert_llr(31, receiver, [-sample, 1.5], 1);
}

#[test]
fn zeros_and_subnormals() {
    let smallest = f32::from_bits(1);
    for zeros in [[0.0, 0.0], [0.0, -0.0], [-0.0, 0.0], [-0.0, -0.0]] {
        assert_llr(31, PLAIN, zeros, 0);
        assert_llr(31, LARGEST, zeros, 0);
    }
    for pair in [
        [smallest, smallest],
        [smallest, -smallest],
        [smallest, -0.0],
    ] {
        assert_llr(31, PLAIN, pair, 0);
    }
    // The largest factor makes a little less than 4 of 2^-126, and half of it
    // of 2^-127, which is a subnormal.
    let normal = f32::MIN_POSITIVE;
    assert_llr(31, LARGEST, [normal, 0.0], 4);
    assert_llr(31, LARGEST, [normal, -normal / 2.0], 2);
    assert_llr(31, LARGEST, [normal / 4.0, -normal / 8.0], 0);
    // A product of two tiny numbers is 0, and of a tiny one and a huge one not.
    let receiver = with_factors(smallest, normal);
    assert_llr(31, receiver, [smallest, normal], 0);
    assert_llr(31, receiver, [f32::MAX, f32::MAX], 4);
}

#[test]
fn zeros_in_the_second_branch_leave_one_antenna() {
    let samples = [
        0.5,
        beside(0.5)[0],
        -1.5,
        4096.0,
        -4097.0,
        f32::MAX,
        -0.0,
        f32::from_bits(1),
    ];
    for factor in [1.0, 0.1, f32::MAX, f32::MIN_POSITIVE] {
        for zero in [0.0, -0.0] {
            for second in [0.1, f32::MAX] {
                let receiver = with_factors(factor, second);
                let (mut one, mut two) = ([9; 8], [9; 8]);
                let channel = Channel::Gaussian(factor);
                assert_eq!(front(3, 2047, channel, &samples, &mut one), Ok(()));
                let branches = [&samples[..], &[zero; 8]];
                assert_eq!(front_two(3, 2047, receiver, branches, &mut two), Ok(()));
                assert_eq!(one, two);
            }
        }
    }
}

/// A call with samples of these lengths; what is refused writes nothing.
fn answer(
    m: i64,
    ceiling: i64,
    receiver: Receiver,
    branches: [&[f32]; 2],
    llr_len: usize,
) -> Result<(), Refusal> {
    let mut llr = vec![9; llr_len];
    let answer = front_two(m, ceiling, receiver, branches, &mut llr);
    if answer.is_err() {
        assert_eq!(llr, vec![9; llr_len]);
    }
    answer
}

#[test]
fn what_lies_behind_is_kept_and_not_read() {
    let first = [1.0, -2.0, f32::NAN];
    let second = [3.0, 1.0, f32::INFINITY, f32::NAN];
    let mut llr = [9; 4];
    let answer = front_two(1, 31, PLAIN, [&first, &second], &mut llr);
    assert_eq!(answer, Ok(()));
    assert_eq!(llr, [4, -1, 9, 9]);
}

#[test]
fn lengths() {
    let samples = [1.0; 9];
    for first in [0, 1, 7, 8, 9] {
        for second in [0, 1, 7, 8, 9] {
            for llr_len in [0, 1, 7, 8, 9] {
                let branches = [&samples[..first], &samples[..second]];
                let enough = first >= 8 && second >= 8 && llr_len >= 8;
                let expected = if enough { Ok(()) } else { Err(Refusal::Slice) };
                assert_eq!(answer(3, 31, PLAIN, branches, llr_len), expected);
            }
        }
    }
}

#[test]
fn each_factor_is_tested() {
    let samples = [1.0; 2];
    for bad in [0.0, -0.0, -1.5, f32::NAN, f32::INFINITY, -f32::INFINITY] {
        for (first, second) in [(bad, 1.0), (1.0, bad), (bad, bad), (3.0, bad)] {
            let receiver = with_factors(first, second);
            let answer = answer(1, 31, receiver, [&samples, &samples], 2);
            assert_eq!(answer, Err(Refusal::Factor));
        }
    }
    for good in [f32::from_bits(1), f32::MIN_POSITIVE, f32::MAX] {
        let receiver = with_factors(good, good);
        assert_eq!(answer(1, 31, receiver, [&samples, &samples], 2), Ok(()));
    }
}

#[test]
fn each_sample_is_tested() {
    let good = [1.0; 4];
    for bad in [f32::NAN, f32::INFINITY, -f32::INFINITY] {
        for place in 0..4 {
            let mut samples = good;
            samples[place] = bad;
            for branches in [[&samples, &good], [&good, &samples], [&samples, &samples]] {
                let branches = branches.map(|samples| &samples[..]);
                assert_eq!(answer(2, 31, PLAIN, branches, 4), Err(Refusal::Sample));
            }
        }
    }
}

#[test]
fn the_front_for_two_orders_its_refusals() {
    let good = [1.0; 2];
    let bad = [f32::NAN; 2];
    let unusable = with_factors(1.0, 0.0);
    for branches in [[&bad[..], &good], [&good, &bad]] {
        for m in [0, 11] {
            assert_eq!(answer(m, 0, unusable, branches, 0), Err(Refusal::BlockSize));
        }
        for ceiling in [0, 2048] {
            let answer = answer(1, ceiling, unusable, branches, 1);
            assert_eq!(answer, Err(Refusal::Ceiling));
        }
        for ceiling in [1, 2047] {
            let short = answer(1, ceiling, unusable, branches, 1);
            assert_eq!(short, Err(Refusal::Slice));
            let factor = answer(1, ceiling, unusable, branches, 2);
            assert_eq!(factor, Err(Refusal::Factor));
            let sample = answer(1, ceiling, PLAIN, branches, 2);
            assert_eq!(sample, Err(Refusal::Sample));
        }
    }
}
