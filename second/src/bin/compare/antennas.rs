//! What is said of two antennas, as properties of several calls: with the
//! branches exchanged the answer and the LLRs are the same, and with zeros in
//! the second branch they are those of one antenna.

use crate::front_calls::FrontCall;
use crate::generate::enough;
use crate::judge::{headed, require_none, Difference, Judge};
use crate::memory::Fenced;
use crate::pairs::draw_receiver;
use crate::rng::Rng;
use crate::show::differences;
use second::code::block_len;
use second::front::{cut, LARGEST_PRODUCT};
use second::{Channel, Receiver};

/// A call for two antennas.
type Two = FrontCall<Receiver>;

/// A kind of pairs of products, and whether a pair is of this kind.
type Kind = (&'static str, fn(f32, f32) -> bool);

/// Few pairs are of these kinds; the calls that have such a pair are counted.
const RARE: [Kind; 6] = [
    ("opposite products beyond the format", |a, b| {
        a.is_infinite() && a == -b
    }),
    ("a product of 4096 or a neighbouring float", |a, _| {
        a.abs().to_bits().abs_diff(LARGEST_PRODUCT.to_bits()) <= 1
    }),
    ("a product above 4096 and a sum below 1", |a, b| {
        a.abs() > LARGEST_PRODUCT && sum(a, b).abs() < 1.0
    }),
    ("a sum that is rounded to a half", |a, b| {
        let exact = f64::from(cut(a)) + f64::from(cut(b));
        sum(a, b).fract().abs() == 0.5 && exact != f64::from(sum(a, b))
    }),
    ("a sum of 0", |a, b| a != 0.0 && sum(a, b) == 0.0),
    ("a subnormal product", |a, _| a.is_subnormal()),
];

fn sum(one: f32, other: f32) -> f32 {
    cut(one) + cut(other)
}

/// Makes the call, and others with it that have to agree. Each is compared with
/// the second library, so this finds what both libraries have wrong alike.
pub fn check(rng: &mut Rng, judge: &mut Judge, call: &Two) -> Result<(), Difference> {
    check_exchanged(judge, call)?;
    check_zeros(judge, &with_zeros(rng, call))
}

fn check_exchanged(judge: &mut Judge, call: &Two) -> Result<(), Difference> {
    let (answer, after) = judge.check(call)?;
    let (other_answer, other_after) = judge.check(&exchanged(call))?;
    let other = (other_answer, &exchanged(&other_after));
    let told = differences((answer, &after), other, "exchanged");
    let told = headed("the branches exchanged make a difference", told);
    require_none(&told, call)?;
    if answer == 0 {
        count_rare(judge, call);
    }
    Ok(())
}

fn check_zeros(judge: &mut Judge, call: &Two) -> Result<(), Difference> {
    let (answer, after) = judge.check(call)?;
    let (one_answer, one_after) = judge.check(&first_alone(call))?;
    let two = (answer, &first_alone(&after));
    let told = differences(two, (one_answer, &one_after), "one antenna");
    let told = headed("zeros in the second branch make a difference", told);
    require_none(&told, call)?;
    judge.count_answer("two antennas: zeros in the second branch", answer);
    Ok(())
}

/// Factors and samples of one branch taken for those of the other.
fn exchanged(call: &Two) -> Two {
    let mut call = call.clone();
    call.branches.swap(0, 1);
    call.front = Receiver {
        first: call.front.second,
        second: call.front.first,
    };
    call
}

/// Zeros of either sign in the second branch, and another factor for it.
fn with_zeros(rng: &mut Rng, call: &Two) -> Two {
    let mut call = call.clone();
    let n = block_len(i64::from(call.m)).unwrap_or(1);
    let zeros: Vec<f32> = (0..n).map(|_| rng.pick(&[0.0, -0.0])).collect();
    let len = enough(rng, n);
    call.branches[1] = Fenced::new(rng, &zeros, len);
    call.front.second = draw_receiver(rng, i64::from(call.ceiling)).second;
    call
}

/// The call for one antenna with the factor and the samples of the first branch.
fn first_alone(call: &Two) -> FrontCall<Channel> {
    FrontCall {
        m: call.m,
        ceiling: call.ceiling,
        front: Channel::Gaussian(call.front.first),
        branches: vec![call.branches[0].clone()],
        llr: call.llr.clone(),
    }
}

fn count_rare(judge: &mut Judge, call: &Two) {
    let products = |branch: usize, factor: f32| {
        let samples = &call.branches[branch].slice()[..1 << call.m];
        samples.iter().map(move |sample| sample * factor)
    };
    let first = products(0, call.front.first);
    let pairs: Vec<(f32, f32)> = first.zip(products(1, call.front.second)).collect();
    for (name, is_one) in RARE {
        if pairs.iter().any(|&(a, b)| is_one(a, b) || is_one(b, a)) {
            judge.count_event(&format!("two antennas: calls with {name}"));
        }
    }
}
