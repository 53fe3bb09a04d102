//! The summary of the radios: order, rounding, and the orders of refusals.

use crate::*;

fn summary_of(lines: &str) -> String {
    let text = format!("radio blocks criterion limit refusals iterations\n{lines}");
    String::from_utf8(summary(text.as_bytes())).unwrap()
}

/// The lines of an accepted text below the line of names.
fn lines_of(lines: &str) -> String {
    let summary = summary_of(lines);
    let names = "radio blocks criterion refusals iterations\n";
    summary.strip_prefix(names).expect(&summary).to_string()
}

#[test]
fn weakest_first() {
    let list = "0 4 2 1 1 12\n1 0 0 0 0 0\n3 2 1 1 0 6\n7 2 1 0 1 7\n9 5 0 0 5 0\n63 3 3 0 0 3\n";
    // Radios 0 and 3 have equal shares and equally many iterations to a block.
    let expected =
        "9 5 0.0% 5 -\n7 2 50.0% 1 7.0\n0 4 50.0% 1 4.0\n3 2 50.0% 0 3.0\n63 3 100.0% 0 1.0\n";
    assert_eq!(lines_of(list), expected);
    assert_eq!(lines_of(""), "");
    assert_eq!(lines_of("5 0 0 0 0 0\n"), "");
}

#[test]
fn shares_that_print_alike_are_ordered() {
    let list = "2 1000000 333334 666666 0 1000000\n8 3 1 2 0 3\n";
    let expected = "8 3 33.3% 0 1.0\n2 1000000 33.3% 0 1.0\n";
    assert_eq!(lines_of(list), expected);
    let list = "2 3 1 2 0 600\n8 999999 333333 666666 0 199999799\n";
    let expected = "2 3 33.3% 0 200.0\n8 999999 33.3% 0 200.0\n";
    assert_eq!(lines_of(list), expected);
}

#[test]
fn halves_go_up() {
    for (numbers, share, mean) in [
        ("16 1 3 12 5", "6.3%", "1.3"),
        ("2000 1 19 1980 41", "0.1%", "2.1"),
        ("2000 1999 1 0 2099", "100.0%", "1.0"),
        ("2001 1 0 2000 200", "0.0%", "200.0"),
        ("1999 1 19 1979 39", "0.1%", "2.0"),
        ("3 2 0 1 5", "66.7%", "2.5"),
        ("1000000 999499 501 0 200000000", "99.9%", "200.0"),
        ("1000000 999500 500 0 1049999", "100.0%", "1.0"),
        ("1000000 999500 500 0 1050000", "100.0%", "1.1"),
    ] {
        let summary = summary_of(&format!("0 {numbers}\n"));
        let words: Vec<&str> = summary.lines().nth(1).unwrap().split(' ').collect();
        assert_eq!([words[2], words[4]], [share, mean], "{numbers}");
    }
}

#[test]
fn old_tallies_have_lines() {
    for (iterations, mean) in [(128, "64.0"), (129, "64.5"), (399, "199.5"), (400, "200.0")] {
        let expected = format!("1 3 33.3% 1 {mean}\n");
        assert_eq!(lines_of(&format!("1 3 1 1 1 {iterations}\n")), expected);
    }
    assert_eq!(summary_of("1 3 1 1 1 401\n"), "refused\n15\n");
}

#[test]
fn spellings() {
    let plain = lines_of("4 10 3 4 3 77\n40 1 0 0 1 0\n");
    let other = lines_of("000000004  010 3   4 03 000000077\n40 1 000000000 0 1 00\n");
    assert_eq!(plain, other);
    for line in [
        "4 10 3 4 3 0000000077\n",
        "4 10 3 4 3 +77\n",
        "-0 10 3 4 3 77\n",
        " 4 10 3 4 3 77\n",
        "4 10 3 4 3 77 \n",
        "4 10 3 4 3\n",
        "4 10 3 4 3 77 0\n",
        "4 10 3 4\t3 77\n",
        "4 10 3 4 3 77",
        "4 10 3 4 3 77\r\n",
        "4 10 3 4 3 77\n\n",
        "4 10 3 4 3 77\n\0",
        "\n",
    ] {
        assert_eq!(summary_of(line), "refused\n14\n", "{line:?}");
    }
}

#[test]
fn refusals_of_a_line() {
    for (lines, number) in [
        ("64 1 1 0 0 1\n", 16),
        ("999999999 1 1 0 0 1\n", 16),
        ("64 9 9 9 9 9\n", 16),
        ("64 9 9 9 9\n", 14),
        ("5 1 0 0 1 0\n5 1 0 0 1 0\n", 14),
        ("5 1 0 0 1 0\n4 9 9 9 9 9\n", 14),
        ("5 1 0 0 1 0\n64 9 9 9 9 9\n", 16),
        ("5 9 9 9 9 9\n64 1 0 0 1 0\n", 15),
        ("5 9 9 9 9 9\nx\n", 15),
        ("64 0 0 0 0 0\nx\n", 16),
        ("x\n64 0 0 0 0 0\n", 14),
        ("63 0 0 0 0 0\n0 0 0 0 0 0\n", 14),
        ("1 1000001 0 0 1000001 0\n", 15),
        ("1 3 1 1 0 2\n", 15),
        ("1 1 1 1 0 2\n", 15),
        ("1 2 1 1 0 1\n", 15),
        ("1 2 1 1 0 401\n", 15),
        ("1 2 0 0 2 1\n", 15),
    ] {
        assert_eq!(summary_of(lines), format!("refused\n{number}\n"), "{lines}");
    }
    assert_eq!(
        lines_of("1 1000000 0 0 1000000 0\n"),
        "1 1000000 0.0% 1000000 -\n"
    );
}

#[test]
fn names_and_length() {
    let text = "radio blocks criterion limit refusals iterations\n1 2 1 1 0 2\n";
    let answer = |text: &str| String::from_utf8(summary(text.as_bytes())).unwrap();
    let expected = answer(text);
    assert!(expected.ends_with("\n1 2 50.0% 0 1.0\n"));
    for wrong in [
        "",
        "radio",
        &text[..text.len() - 13],
        &text[1..],
        &text.replacen(' ', "  ", 1),
    ] {
        assert_eq!(answer(wrong), "refused\n14\n", "{wrong:?}");
    }
    let padded = |bytes: usize| {
        text.replacen(
            "1 2",
            &format!("1{}2", " ".repeat(bytes - text.len() + 1)),
            1,
        )
    };
    assert_eq!(answer(&padded(32_768)), expected);
    assert_eq!(answer(&padded(32_769)), "refused\n14\n");
    // A text that is too long is malformed before its lines are looked at.
    assert_eq!(
        answer(&padded(32_769).replacen("2 1 1", "9 1 1", 1)),
        "refused\n14\n"
    );
}
