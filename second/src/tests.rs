//! The blocks worked by hand in the paper as the change requests amend them,
//! frozen positions, and the orders of refusals.

use crate::*;

/// C = 31, k = 16, T = 10, criterion 1 with operand 0.
const USUAL: Settings = Settings {
    m: 1,
    ceiling: 31,
    scale: 16,
    limit: 10,
    criterion: 1,
    operand: 0,
};

const P1_MASK: &[u8] = &[1, 0];
const P1_LLR: &[i16] = &[5, -3];

/// What a run wrote.
#[derive(Debug, PartialEq)]
struct Run {
    answer: Result<Ending, Refusal>,
    soft: Vec<i16>,
    mark: Vec<u8>,
    coded_soft: Vec<i16>,
    coded_mark: Vec<u8>,
    work: Vec<i16>,
}

fn run(settings: Settings, mask: &[u8], llr: &[i16]) -> Run {
    let n = mask.len();
    let mut run = Run {
        answer: Err(Refusal::Text),
        soft: vec![99; n],
        mark: vec![99; n],
        coded_soft: vec![99; n],
        coded_mark: vec![99; n],
        work: vec![99; 22 * n],
    };
    let mut lent = Lent {
        soft: &mut run.soft,
        mark: &mut run.mark,
        coded_soft: &mut run.coded_soft,
        coded_mark: &mut run.coded_mark,
        work: &mut run.work,
    };
    run.answer = decode(&settings, mask, llr, &mut lent);
    run
}

fn ended(iterations: u32, reason: u32) -> Result<Ending, Refusal> {
    Ok(Ending { iterations, reason })
}

#[test]
fn p1() {
    let run = run(USUAL, P1_MASK, P1_LLR);
    assert_eq!(run.answer, ended(1, 1));
    assert_eq!(run.soft, [31, 2]);
    assert_eq!(run.mark, [0, 0]);
    assert_eq!(run.coded_soft, [2, 2]);
    assert_eq!(run.coded_mark, [0, 0]);
    // L columns 0 and 1, then R columns 0 and 1, then old contents.
    assert_eq!(run.work[..8], [-3, 2, 5, -3, 31, 0, -3, 5]);
    assert!(run.work[8..].iter().all(|&v| v == 99));
}

#[test]
fn p2() {
    let run = run(USUAL, P1_MASK, &[-5, 3]);
    assert_eq!(run.answer, ended(1, 1));
    assert_eq!(run.soft, [31, -2]);
    assert_eq!(run.mark, [0, 1]);
    assert_eq!(run.coded_soft, [-2, -2]);
    assert_eq!(run.coded_mark, [1, 1]);
}

#[test]
fn p3() {
    let settings = Settings { scale: 15, ..USUAL };
    let run = run(settings, P1_MASK, P1_LLR);
    assert_eq!(run.answer, ended(1, 1));
    assert_eq!(run.soft, [31, 1]);
    assert_eq!(run.mark, [0, 0]);
    assert_eq!(run.coded_soft, [3, 1]);
    assert_eq!(run.coded_mark, [0, 0]);
}

#[test]
fn p4() {
    let run = run(USUAL, P1_MASK, &[3, -3]);
    assert_eq!(run.answer, ended(10, 2));
    assert_eq!(run.soft, [31, 0]);
    assert_eq!(run.mark, [0, 2]);
    assert_eq!(run.coded_soft, [0, 0]);
    assert_eq!(run.coded_mark, [2, 2]);
}

#[test]
fn p5() {
    let run = run(USUAL, &[0, 1], &[7, -31]);
    assert_eq!(run.answer, ended(10, 2));
    assert_eq!(run.soft, [0, 31]);
    assert_eq!(run.mark, [2, 0]);
    assert_eq!(run.coded_soft, [7, 0]);
    assert_eq!(run.coded_mark, [0, 2]);
    // The messages of the frozen position still add up to 0.
    assert_eq!(run.work[..8], [0, -31, 7, -31, 0, 31, 0, 31]);
}

#[test]
fn p6() {
    for criterion in [2, 4] {
        let with = |operand| Settings {
            criterion,
            operand,
            ..USUAL
        };
        assert_eq!(run(with(2), P1_MASK, P1_LLR).answer, ended(1, 1));
        assert_eq!(run(with(3), P1_MASK, P1_LLR).answer, ended(10, 2));
    }
}

#[test]
fn p7() {
    let with = |limit| Settings {
        criterion: 3,
        operand: 1,
        limit,
        ..USUAL
    };
    assert_eq!(run(with(10), P1_MASK, P1_LLR).answer, ended(2, 1));
    assert_eq!(run(with(1), P1_MASK, P1_LLR).answer, ended(1, 2));
}

#[test]
fn p8() {
    let settings = Settings { m: 2, ..USUAL };
    let run = run(settings, &[1, 1, 1, 0], &[1, 2, 3, 4]);
    assert_eq!(run.answer, ended(1, 1));
    assert_eq!(run.soft, [31, 31, 31, 6]);
    assert_eq!(run.coded_soft, [7, 7, 9, 9]);
}

#[test]
fn p9() {
    assert_eq!(code::coded_bits(&[0, 0, 0, 1]), [1, 1, 1, 1]);
    assert_eq!(code::coded_bits(&[0, 1, 0, 0]), [1, 1, 0, 0]);
    let mut block = [9; 5];
    assert_eq!(encode(2, &[1, 0, 1, 1], &[1], &mut block), Ok(()));
    assert_eq!(block, [1, 1, 0, 0, 9]);
}

#[test]
fn p10() {
    let mut llr = [9; 2];
    let channel = Channel::Gaussian(1.5);
    assert_eq!(front(1, 31, channel, &[1.0, -1.0], &mut llr), Ok(()));
    assert_eq!(llr, [2, -2]);
    let channel = Channel::Flipping(0.25);
    assert_eq!(front(1, 31, channel, &[1.0, -1.0], &mut llr), Ok(()));
    assert_eq!(llr, [0, 0]);
}

/// Position 3 of four carries information.
const LAST_OF_FOUR: &[u8] = &[1, 1, 1, 0];

/// L(0,i) + R(0,i) as the workspace has them at the end, cut to the ceiling.
fn sums(settings: &Settings, run: &Run) -> Vec<i16> {
    let n = run.soft.len();
    let (left, right) = (&run.work[..n], &run.work[(settings.m as usize + 1) * n..]);
    let ceiling = settings.ceiling as i16;
    let sum = |(l, r): (&i16, &i16)| (l + r).clamp(-ceiling, ceiling);
    left.iter().zip(right).map(sum).collect()
}

#[test]
fn criterion_1_sees_no_tie_at_a_frozen_position() {
    // Iteration 2 has a tie among the sums, iteration 3 would have none.
    let settings = Settings { m: 2, ..USUAL };
    let four = run(settings, LAST_OF_FOUR, &[20, -10, 20, -10]);
    assert_eq!(four.answer, ended(2, 1));
    assert_eq!(sums(&settings, &four), [20, 31, 0, 20]);
    assert_eq!(four.soft, [31, 31, 31, 20]);
    assert_eq!(four.mark, [0; 4]);
    assert_eq!(four.coded_soft, [20, 11, 20, 11]);
    // The same with a scale below 16.
    let settings = Settings {
        scale: 15,
        ..settings
    };
    let scaled = run(settings, &[1, 1, 0, 1], &[-21, -16, -8, -8]);
    assert_eq!(scaled.answer, ended(2, 1));
    assert_eq!(sums(&settings, &scaled), [31, 16, -10, 0]);
    assert_eq!(scaled.soft, [31, 31, -10, 31]);
    assert_eq!(scaled.mark, [0, 0, 1, 0]);
    // Every even iteration has a tie among the sums, and no odd one agrees
    // with its coded marks: the sums would go on to the limit.
    let settings = Settings {
        m: 3,
        ceiling: 5,
        ..USUAL
    };
    let mask = &[1, 1, 1, 1, 1, 1, 1, 0];
    let eight = run(settings, mask, &[-2, 1, -3, 1, -2, 2, -4, -1]);
    assert_eq!(eight.answer, ended(2, 1));
    assert_eq!(sums(&settings, &eight), [4, 5, 4, 5, 2, 5, 0, -5]);
    assert_eq!(eight.soft, [5, 5, 5, 5, 5, 5, 5, -5]);
    assert_eq!(eight.mark, [0, 0, 0, 0, 0, 0, 0, 1]);
    assert_eq!(eight.coded_mark, [1; 8]);
}

#[test]
fn criterion_2_finds_the_ceiling_at_a_frozen_position() {
    // The first sum stays at 11, or at 0: the sums would go on to the limit.
    for (first, operands) in [(-20, 12..=31), (-31, 1..=31)] {
        for operand in operands {
            let settings = Settings {
                m: 2,
                criterion: 2,
                operand,
                ..USUAL
            };
            let run = run(settings, LAST_OF_FOUR, &[first, 31, 31, 31]);
            assert_eq!(run.answer, ended(1, 1));
            assert_eq!(sums(&settings, &run), [31 + first, 31, 31, 31]);
            assert_eq!(run.soft, [31; 4]);
        }
    }
}

#[test]
fn criterion_3_looks_at_information_positions() {
    // Position 2 has a tie among the sums at iteration 2 alone; the marks of
    // position 3 are 1, 0, 0, 0.
    for (operand, iterations) in [(1, 3), (2, 4)] {
        let settings = Settings {
            m: 2,
            criterion: 3,
            operand,
            ..USUAL
        };
        let run = run(settings, LAST_OF_FOUR, &[20, -10, 20, -10]);
        assert_eq!(run.answer, ended(iterations, 1));
    }
}

#[test]
fn criterion_4_looks_at_information_positions() {
    // No decoder leaves such outputs: a frozen position has the ceiling.
    let outputs = endings::Outputs {
        soft: vec![3, -8, 0, 7],
        mark: vec![0, 1, 2, 0],
        coded_soft: vec![0; 4],
        coded_mark: vec![2; 4],
    };
    let holds = |criterion, operand, information: &[usize]| {
        endings::holds(
            criterion,
            operand,
            information,
            std::slice::from_ref(&outputs),
        )
    };
    assert!(holds(4, 7, &[1, 3]));
    assert!(!holds(4, 8, &[1, 3]));
    assert!(holds(4, 8, &[1]));
    assert!(!holds(4, 9, &[1]));
    assert!(holds(4, 3, &[0, 1, 3]));
    assert!(!holds(4, 4, &[0, 1, 3]));
    assert!(!holds(4, 1, &[0, 1, 2, 3]));
    assert!(!holds(2, 1, &[1, 3]));
}

/// Every list of so many values, each from `low` to `high`.
fn lists(len: usize, low: i16, high: i16) -> Vec<Vec<i16>> {
    let longer = |lists: Vec<Vec<i16>>, _| {
        let with = |value| lists.iter().map(move |list| [&list[..], &[value]].concat());
        (low..=high).flat_map(with).collect()
    };
    (0..len).fold(vec![vec![]], longer)
}

#[test]
fn criteria_2_and_4_agree_on_small_blocks() {
    for (m, ceiling) in [(1, 5), (2, 2)] {
        // Among them LLRs above the ceiling, and the mask without information.
        let llrs = lists(1 << m, -ceiling, ceiling + 1);
        for mask in lists(1 << m, 0, 1) {
            let mask: Vec<u8> = mask.iter().map(|&v| v as u8).collect();
            let settings = Settings {
                m,
                ceiling: i64::from(ceiling),
                ..USUAL
            };
            llrs.iter()
                .for_each(|llr| criteria_2_and_4_agree(settings, &mask, llr));
        }
    }
}

/// With every operand, and one on either side that is refused.
fn criteria_2_and_4_agree(settings: Settings, mask: &[u8], llr: &[i16]) {
    for operand in 0..=settings.ceiling + 1 {
        let with = |criterion| Settings {
            criterion,
            operand,
            ..settings
        };
        assert_eq!(run(with(2), mask, llr), run(with(4), mask, llr));
    }
}

#[test]
fn bounds_of_criterion_and_operand() {
    let answer = |criterion, operand| {
        let settings = Settings {
            criterion,
            operand,
            ..USUAL
        };
        run(settings, P1_MASK, P1_LLR).answer
    };
    for criterion in [2, 4] {
        assert_eq!(answer(criterion, 1), ended(1, 1));
        assert_eq!(answer(criterion, 31), ended(10, 2));
        assert_eq!(answer(criterion, 0), Err(Refusal::Operand));
        assert_eq!(answer(criterion, 32), Err(Refusal::Operand));
    }
    for operand in [0, 1, 32] {
        assert_eq!(answer(5, operand), Err(Refusal::Criterion));
    }
}

#[test]
fn bounds_of_llr_and_limit() {
    assert!(run(USUAL, P1_MASK, &[31, -31]).answer.is_ok());
    assert_eq!(run(USUAL, P1_MASK, &[32, 0]).answer, Err(Refusal::Llr));
    assert_eq!(run(USUAL, P1_MASK, &[0, -32768]).answer, Err(Refusal::Llr));
    let with = |limit| Settings { limit, ..USUAL };
    assert!(run(with(64), P1_MASK, P1_LLR).answer.is_ok());
    // 200 was the largest limit once.
    for bad in [0, 65, 66, 199, 200, 201] {
        let answer = run(with(bad), P1_MASK, P1_LLR).answer;
        assert_eq!(answer, Err(Refusal::Limit));
    }
}

#[test]
fn the_decoder_goes_on_to_its_limit() {
    for limit in 1..=64 {
        let with = |criterion, limit| Settings {
            criterion,
            limit,
            ..USUAL
        };
        let all = ended(limit as u32, 2);
        assert_eq!(run(with(0, limit), P1_MASK, P1_LLR).answer, all);
        assert_eq!(run(with(1, limit), P1_MASK, &[3, -3]).answer, all);
        assert_eq!(run(with(1, limit), P1_MASK, P1_LLR).answer, ended(1, 1));
    }
}

#[test]
fn a_block_ends_at_the_largest_limit() {
    // The least size of a soft output is 33 from iteration 62 on, 34 from 64 on.
    for criterion in [2, 4] {
        let answer = |limit, operand| {
            let settings = Settings {
                m: 2,
                ceiling: 2047,
                limit,
                criterion,
                operand,
                ..USUAL
            };
            run(settings, &[1, 1, 0, 0], &[-36, -16, -18, 17]).answer
        };
        assert_eq!(answer(64, 33), ended(62, 1));
        assert_eq!(answer(64, 34), ended(64, 1));
        assert_eq!(answer(64, 35), ended(64, 2));
        assert_eq!(answer(63, 34), ended(63, 2));
    }
}

#[test]
fn special_samples() {
    let mut llr = [0; 4];
    let huge = Channel::Gaussian(f32::MAX);
    let samples = [-f32::MAX, 0.0, -0.0, f32::MIN_POSITIVE];
    assert_eq!(front(2, 2047, huge, &samples, &mut llr), Ok(()));
    assert_eq!(llr, [-2047, 0, 0, 4]);
    let below_half = f32::from_bits(0.5_f32.to_bits() - 1);
    let samples = [0.5, -0.5, below_half, -1.5];
    assert_eq!(front(2, 1, Channel::Erasing, &samples, &mut llr), Ok(()));
    assert_eq!(llr, [1, -1, 1, -1]);
    let one = Channel::Gaussian(1.0);
    assert_eq!(front(2, 9, one, &samples, &mut llr), Ok(()));
    assert_eq!(llr, [1, -1, 0, -2]);
}

#[test]
fn coder_orders_its_refusals() {
    let mut block = [9; 2];
    let mut coder = |mask: &[u8], message: &[u8]| encode(1, mask, message, &mut block);
    assert_eq!(coder(&[2], &[]), Err(Refusal::Slice));
    assert_eq!(coder(&[2, 1], &[]), Err(Refusal::MaskValue));
    assert_eq!(coder(&[1, 1], &[]), Err(Refusal::NoInformation));
    assert_eq!(coder(&[0, 0], &[2]), Err(Refusal::Slice));
    assert_eq!(coder(&[0, 1], &[2]), Err(Refusal::MessageByte));
    assert_eq!(coder(&[0, 1], &[1, 2]), Ok(()));
}
