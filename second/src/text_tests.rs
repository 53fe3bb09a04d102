//! The worked text of the paper as the change requests amend it: its report,
//! its tidy form, and the orders of refusals of reader and writer.

use crate::*;

const WORKED: &str = "m ceiling scale limit criterion operand\n1 31 16 10 1 0\n\
                      position frozen llr\n0 1 5\n1 0 -3\n";

fn report_of(text: &str) -> String {
    String::from_utf8(report(text.as_bytes())).unwrap()
}

#[test]
fn worked_text() {
    let expected = "iterations reason\n1 1\nposition soft mark coded codedmark\n\
                    0 31 0 2 0\n1 2 0 2 0\n";
    assert_eq!(report_of(WORKED), expected);
}

#[test]
fn text_refusals() {
    let changed = |from, to| report_of(&WORKED.replacen(from, to, 1));
    assert_eq!(changed("1 31", "11 0"), "refused\n1\n");
    assert_eq!(changed("1 31", "1  0031").len(), report_of(WORKED).len());
    assert_eq!(changed("1 31", "1\t31"), "refused\n14\n");
    assert_eq!(changed("1 31", "1 +31"), "refused\n14\n");
    assert_eq!(changed("1 31", "1 0000031"), "refused\n14\n");
    assert_eq!(changed("1 31", "1 -"), "refused\n14\n");
    assert_eq!(changed("0 1 5", "-0 1 5").len(), report_of(WORKED).len());
    assert_eq!(changed("0 1 5", "0 256 5"), "refused\n8\n");
    assert_eq!(changed("1 0 -3", "1 1 -999999"), "refused\n9\n");
    assert_eq!(changed("1 0 -3", "1 0 -65539"), "refused\n10\n");
    assert_eq!(changed("-3\n", "-3"), "refused\n14\n");
    assert_eq!(changed("-3\n", "-3\n\n"), "refused\n14\n");
    assert_eq!(report_of(""), "refused\n14\n");
}

#[test]
fn criteria_2_and_4_have_one_report() {
    let under = |values: &str| report_of(&WORKED.replacen("1 0\n", &format!("{values}\n"), 1));
    assert_eq!(under("4 2"), report_of(WORKED));
    assert!(under("4 3").starts_with("iterations reason\n10 2\n"));
    for operand in ["-1", "0", "1", "2", "3", "31", "32", "65538"] {
        assert_eq!(
            under(&format!("2 {operand}")),
            under(&format!("4 {operand}"))
        );
    }
    assert_eq!(under("4 0"), "refused\n6\n");
    assert_eq!(under("4 32"), "refused\n6\n");
    assert_eq!(under("5 2"), "refused\n5\n");
    assert_eq!(under("260 2"), "refused\n5\n");
}

#[test]
fn text_length() {
    let padded = |bytes: usize| {
        let spaces = " ".repeat(bytes - WORKED.len());
        report_of(&WORKED.replacen("0 -3", &format!("0 {spaces}-3"), 1))
    };
    assert_eq!(padded(32_768), report_of(WORKED));
    assert_eq!(padded(32_769), "refused\n14\n");
}

/// The worked text in another spelling.
const UNTIDY: &str = "m ceiling scale limit criterion operand\n0001  31 000016 10 01 -0\n\
                      position frozen llr\n-0   1 05\n01 -000  -003\n";

const WORKED_SETTINGS: Settings = Settings {
    m: 1,
    ceiling: 31,
    scale: 16,
    limit: 10,
    criterion: 1,
    operand: 0,
};

fn tidy_of(text: &str) -> String {
    String::from_utf8(tidy(text.as_bytes())).unwrap()
}

#[test]
fn tidy_texts() {
    assert_eq!(tidy_of(UNTIDY), WORKED);
    assert_eq!(tidy_of(WORKED), WORKED);
    assert_eq!(report_of(UNTIDY), report_of(WORKED));
    assert_eq!(tidy_of(&WORKED.replacen(" -3", " -32", 1)), "refused\n10\n");
    assert_eq!(tidy_of(&UNTIDY[..UNTIDY.len() - 1]), "refused\n14\n");
}

#[test]
fn limits_of_texts() {
    let with = |limit: &str| WORKED.replacen("10 1", &format!("{limit} 1"), 1);
    for limit in ["1", "64"] {
        assert_eq!(tidy_of(&with(limit)), with(limit));
        assert_eq!(report_of(&with(limit)), report_of(WORKED));
    }
    assert_eq!(tidy_of(&with("000064")), with("64"));
    for limit in ["-64", "0", "65", "0065", "100", "200", "201", "320"] {
        assert_eq!(tidy_of(&with(limit)), "refused\n4\n");
        assert_eq!(report_of(&with(limit)), "refused\n4\n");
        assert_eq!(read_into(&with(limit), [2, 2]).0, Err(Refusal::Limit));
    }
}

#[test]
fn longest_tidy_text() {
    for criterion in [2, 4] {
        let settings = Settings::from_list([10, 2047, 16, 64, criterion, 2047]);
        let mut text = [b'x'; 12_284];
        let mut write = |len| write(&settings, &[0; 1024], &[-2047; 1024], &mut text[..len]);
        assert_eq!(write(12_282), Err(Refusal::Slice));
        assert_eq!(write(12_284), Ok(12_283));
        assert_eq!(text[12_270..], *b"1023 0 -2047\nx");
        assert_eq!(tidy(&text[..12_283]), text[..12_283]);
    }
}

/// Reads into slices of these lengths that hold 9, and hands them back.
fn read_into(text: &str, lens: [usize; 2]) -> (Result<Settings, Refusal>, Vec<u8>, Vec<i16>) {
    let (mut mask, mut llr) = (vec![9; lens[0]], vec![9; lens[1]]);
    let answer = read(text.as_bytes(), &mut mask, &mut llr);
    (answer, mask, llr)
}

#[test]
fn reader() {
    for text in [WORKED, UNTIDY] {
        let (answer, mask, llr) = read_into(text, [2, 3]);
        assert_eq!(answer, Ok(WORKED_SETTINGS));
        assert_eq!((mask, llr), (vec![1, 0], vec![5, -3, 9]));
    }
    let (answer, mask, llr) = read_into(&WORKED.replacen("-3", "32", 1), [3, 2]);
    assert_eq!(answer, Err(Refusal::Llr));
    assert_eq!((mask, llr), (vec![9; 3], vec![9; 2]));
}

#[test]
fn reader_orders_its_refusals() {
    let answer = |changes: &[(&str, &str)], lens| {
        let change = |text: String, (from, to): &(&str, &str)| text.replacen(from, to, 1);
        let text = changes.iter().fold(WORKED.to_string(), change);
        read_into(&text, lens).0.map_err(Refusal::number)
    };
    let (short, exact) = ([1, 2], [2, 2]);
    let (m, ceiling, operand) = (("1 31", "11 31"), ("31", "0"), ("1 0\n", "1 1\n"));
    let (mask, all_frozen, llr) = (("0 1 5", "0 2 5"), ("1 0 -3", "1 1 -3"), ("-3", "-32"));
    let (name, extra) = (("frozen", "Frozen"), ("-3\n", "-3\n\n"));
    assert_eq!(answer(&[name, m, ceiling], short), Err(14));
    assert_eq!(answer(&[m, extra, ceiling], short), Err(1));
    assert_eq!(answer(&[extra, ceiling], short), Err(14));
    assert_eq!(answer(&[ceiling, mask], short), Err(2));
    assert_eq!(answer(&[operand, mask], short), Err(6));
    assert_eq!(answer(&[mask, llr], short), Err(7));
    assert_eq!(answer(&[mask, llr], [2, 1]), Err(7));
    assert_eq!(answer(&[mask, llr], exact), Err(8));
    assert_eq!(answer(&[all_frozen, ("-3", "-32")], exact), Err(9));
    assert_eq!(answer(&[llr], exact), Err(10));
}

#[test]
fn writer() {
    let needed = WORKED.len();
    let mut text = vec![b'x'; needed + 1];
    let mut write = |len: usize| {
        write(
            &WORKED_SETTINGS,
            &[1, 0, 7],
            &[5, -3, 999],
            &mut text[..len],
        )
    };
    assert_eq!(write(0), Err(Refusal::Slice));
    assert_eq!(write(needed - 1), Err(Refusal::Slice));
    assert_eq!(write(needed), Ok(needed));
    assert_eq!(text, [WORKED.as_bytes(), b"x"].concat());
    text.fill(b'y');
    let answer = crate::write(&WORKED_SETTINGS, &[1, 0], &[5, -3], &mut text);
    assert_eq!(answer, Ok(needed));
    assert_eq!(text, [WORKED.as_bytes(), b"y"].concat());
}

#[test]
fn writer_orders_its_refusals() {
    let answer = |list: [i64; 6], mask: &[u8], llr: &[i16], room: usize| {
        let mut text = vec![9; room];
        let answer = write(&Settings::from_list(list), mask, llr, &mut text);
        assert!(answer.is_ok() || text == vec![9; room]);
        answer.map_err(Refusal::number)
    };
    let good = WORKED_SETTINGS.list();
    let most = i64::from(u32::MAX);
    assert_eq!(answer([most; 6], &[2], &[], 0), Err(1));
    for (place, number) in (0..6).zip(1..) {
        let mut list = good;
        list[place..].fill(most);
        assert_eq!(answer(list, &[2], &[], 0), Err(number));
    }
    assert_eq!(answer(good, &[2], &[-32768, 0], 0), Err(7));
    assert_eq!(answer(good, &[2, 1], &[-32768], 0), Err(7));
    assert_eq!(answer(good, &[2, 1], &[-32768, 0], 0), Err(8));
    assert_eq!(answer(good, &[1, 1], &[-32768, 0], 0), Err(9));
    assert_eq!(answer(good, &[1, 0], &[-32768, 0], 0), Err(10));
    assert_eq!(answer(good, &[1, 0], &[5, -3], WORKED.len() - 1), Err(7));
}

#[test]
fn reading_what_is_written() {
    let mut settings = Settings::from_list([3, 2047, 1, 64, 3, 8]);
    for (criterion, operand) in [(4, 2047), (3, 8), (2, 2047), (1, 0), (0, 0)] {
        (settings.criterion, settings.operand) = (criterion, operand);
        let mask = [0, 1, 0, 1, 1, 0, 0, 0];
        let llr = [2047, -2047, 0, -1, 1, 1000, -999, 10];
        let mut text = [0; 200];
        let len = write(&settings, &mask, &llr, &mut text).unwrap();
        let (mut mask_read, mut llr_read) = ([9; 8], [9; 8]);
        let read = read(&text[..len], &mut mask_read, &mut llr_read);
        assert_eq!(read, Ok(settings));
        assert_eq!((mask_read, llr_read), (mask, llr));
    }
}
