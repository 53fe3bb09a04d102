//! The bounds of a tally, and the tallies of the radios.

use crate::*;

/// Whether a call may be counted in the tally of these numbers.
fn may_count(numbers: [u32; 5]) -> bool {
    Tally::from_list(numbers).may_count()
}

#[test]
fn tally_bounds() {
    assert!(may_count([0, 0, 0, 0, 0]));
    assert!(may_count([999_999, 999_999, 0, 0, 999_999]));
    assert!(may_count([999_999, 0, 999_999, 0, 199_999_800]));
    assert!(!may_count([1_000_000, 0, 0, 1_000_000, 0]));
    assert!(!may_count([2, 1, 0, 0, 1]));
    assert!(!may_count([2, 1, 1, 0, 1]));
    assert!(may_count([2, 1, 1, 0, 128]));
    assert!(may_count([2, 1, 1, 0, 129]));
    assert!(may_count([2, 1, 1, 0, 400]));
    assert!(!may_count([2, 1, 1, 0, 401]));
    assert!(!may_count([2, 0, 0, 2, 1]));
    assert!(!may_count([1, u32::MAX, 2, 0, 1]));
}

/// C = 31, k = 16, T = 10; P1 ends with these at iteration 1, by reason 1.
const LIST: [i64; 6] = [1, 31, 16, 10, 1, 0];

/// A call of P1 under these settings for a radio. The answer, and the list of
/// tallies as it is handed back.
fn call(radio: u32, list: &[u32], settings: [i64; 6]) -> (Result<Ending, u32>, Vec<u32>) {
    let tallies = Radios::from_list(list).expect("the list is long enough");
    let (mut soft, mut mark) = ([99; 2], [99; 2]);
    let (mut coded_soft, mut coded_mark, mut work) = ([99; 2], [99; 2], [99; 8]);
    let mut lent = Lent {
        soft: &mut soft,
        mark: &mut mark,
        coded_soft: &mut coded_soft,
        coded_mark: &mut coded_mark,
        work: &mut work,
    };
    let settings = Settings::from_list(settings);
    let (tallies, answer) = decode_radio(radio, tallies, &settings, &[1, 0], &[5, -3], &mut lent);
    let written = [soft, coded_soft] != [[99; 2]; 2] || mark != [99; 2] || coded_mark != [99; 2];
    assert_eq!(written || work != [99; 8], answer.is_ok());
    (answer.map_err(Refusal::number), tallies.list())
}

#[test]
fn a_call_counts_for_its_radio_alone() {
    let before: Vec<u32> = (0..320).map(|i| i + 1000).collect();
    for radio in [0, 1, 31, 62, 63] {
        let own = 5 * radio as usize;
        let mut list = before.clone();
        list[own..own + 5].copy_from_slice(&[7, 3, 2, 2, 50]);
        let mut after = list.clone();
        after[own..own + 5].copy_from_slice(&[8, 4, 2, 2, 51]);
        let ending = Ending {
            iterations: 1,
            reason: 1,
        };
        assert_eq!(call(radio, &list, LIST), (Ok(ending), after.clone()));
        // Under criterion 0 it goes on to the limit.
        after[own..own + 5].copy_from_slice(&[8, 3, 3, 2, 60]);
        let ending = Ending {
            iterations: 10,
            reason: 2,
        };
        let settings = [1, 31, 16, 10, 0, 0];
        assert_eq!(call(radio, &list, settings), (Ok(ending), after.clone()));
        after[own..own + 5].copy_from_slice(&[8, 3, 2, 3, 50]);
        // Limits that are refused, such as were accepted formerly among them.
        for limit in [0, 65, 200, 201] {
            let settings = [1, 31, 16, limit, 1, 0];
            assert_eq!(call(radio, &list, settings), (Err(4), after.clone()));
        }
    }
}

/// Calls under the limit 64 lead to at most 320 iterations in five endings.
#[test]
fn an_old_tally_goes_on() {
    let list_of = |numbers: [u32; 5]| [&numbers[..], &[0; 315]].concat();
    for iterations in [321, 322, 500, 999, 1000] {
        let list = list_of([7, 3, 2, 2, iterations]);
        let (answer, after) = call(0, &list, LIST);
        assert!(answer.is_ok());
        assert_eq!(after, list_of([8, 4, 2, 2, iterations + 1]));
        let (answer, after) = call(0, &list, [1, 31, 16, 64, 0, 0]);
        assert!(answer.is_ok());
        assert_eq!(after, list_of([8, 3, 3, 2, iterations + 64]));
        for limit in [0, 65, 200, 201] {
            let (answer, after) = call(0, &list, [1, 31, 16, limit, 0, 0]);
            assert_eq!(answer, Err(4));
            assert_eq!(after, list_of([8, 3, 2, 3, iterations]));
        }
    }
    let list = list_of([7, 3, 2, 2, 1001]);
    assert_eq!(call(0, &list, LIST), (Err(15), list.clone()));
    assert_eq!(call(0, &list, [0; 6]), (Err(15), list));
}

/// It does so up to its last block, with as many iterations as it can have.
#[test]
fn an_old_tally_goes_on_to_the_end() {
    let mut list = [&[999_990, 0, 999_990, 0, 199_998_000][..], &[0; 315]].concat();
    for calls in 1..=10 {
        let (answer, after) = call(0, &list, [1, 31, 16, 64, 0, 0]);
        assert!(answer.is_ok());
        let blocks = 999_990 + calls;
        assert_eq!(after[..5], [blocks, 0, blocks, 0, 199_998_000 + 64 * calls]);
        list = after;
    }
    assert_eq!(call(0, &list, LIST), (Err(15), list.clone()));
}

#[test]
fn radios_order_their_refusals() {
    let unusable = vec![1; 320];
    for radio in [64, 65, 1 << 31, u32::MAX] {
        for list in [vec![0; 320], unusable.clone()] {
            for settings in [LIST, [0; 6]] {
                assert_eq!(call(radio, &list, settings), (Err(16), list.clone()));
            }
        }
    }
    for settings in [LIST, [0; 6]] {
        assert_eq!(call(63, &unusable, settings), (Err(15), unusable.clone()));
    }
    assert_eq!(call(63, &[0; 320], [0; 6]).0, Err(1));
}

#[test]
fn lists_of_tallies() {
    for len in [0, 4, 5, 315, 319] {
        assert_eq!(Radios::from_list(&vec![0; len]), Err(Refusal::Slice));
    }
    let list: Vec<u32> = (0..330).collect();
    for len in [320, 321, 325, 330] {
        let tallies = Radios::from_list(&list[..len]).expect("the list is long enough");
        assert_eq!(tallies.list(), list[..320]);
    }
}
