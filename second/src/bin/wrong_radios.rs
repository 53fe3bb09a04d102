//! A summary program for the self-test. The environment variable
//! VEDROGNE_WRONG names a fault that it then has; `compare` must find each of
//! them. Without one it prints what the second summary program prints.

use second::summary::{Row, LIST_NAMES, SUMMARY_NAMES};
use second::MOST_ITERATIONS;
use std::cmp::Ordering;
use std::io::{self, Read, Write};
use std::sync::OnceLock;

/// Whether the named fault is asked for.
fn wrong(name: &str) -> bool {
    static WRONG: OnceLock<String> = OnceLock::new();
    WRONG.get_or_init(|| std::env::var("VEDROGNE_WRONG").unwrap_or_default()) == name
}

fn main() -> io::Result<()> {
    let mut input = Vec::new();
    io::stdin().read_to_end(&mut input)?;
    let output = match rows(&input) {
        Ok(rows) => printed(rows),
        Err(number) => format!("refused\n{number}\n"),
    };
    io::stdout().write_all(output.as_bytes())
}

/// `Ok` where the condition holds, else the number.
fn require(condition: bool, number: u32) -> Result<(), u32> {
    condition.then_some(()).ok_or(number)
}

/// The rows of a text.
fn rows(text: &[u8]) -> Result<Vec<Row>, u32> {
    let most = match () {
        // Wrong: the bound of the length.
        _ if wrong("summary_longer") => 32_769,
        _ if wrong("summary_shorter") => 32_767,
        _ => 32_768,
    };
    require(text.len() <= most, 14)?;
    let mut lines = text.split_inclusive(|&b| b == b'\n');
    let names = lines.next().and_then(|line| line.strip_suffix(b"\n"));
    // Wrong: any line will do for the names.
    require(names.is_some(), 14)?;
    require(names == Some(LIST_NAMES) || wrong("summary_names"), 14)?;
    if wrong("summary_text_first") {
        // Wrong: 14 of the last line before 16 and 15 of the first.
        lines
            .clone()
            .try_for_each(|line| values(line).map(|_| ()))?;
    }
    let mut rows = Vec::new();
    for line in lines {
        // Wrong: an empty line is no line.
        if !(wrong("summary_empty_line") && line == b"\n") {
            let row = row(line, rows.last())?;
            rows.push(row);
        }
    }
    Ok(rows)
}

/// The row of a line, tested.
fn row(line: &[u8], before: Option<&Row>) -> Result<Row, u32> {
    // Wrong: 16 before the other values are looked at.
    if wrong("summary_16_early") {
        let first = line.split(|&b| b == b' ').next().unwrap_or_default();
        require(value(first)? < 64, 16)?;
    }
    let row = Row::from_list(values(line)?);
    // Wrong: one radio more.
    let known = row.radio < 64 + u64::from(wrong("summary_radio_64"));
    let rising = before.is_none_or(|before| match () {
        // Wrong: a radio twice, or any order.
        _ if wrong("summary_radio_twice") => before.radio <= row.radio,
        _ if wrong("summary_any_order") => true,
        _ => before.radio < row.radio,
    });
    // Wrong: 15 before the others, or before the order.
    if wrong("summary_15_before_16") {
        require(adds_up(&row), 15)?;
    }
    require(known, 16)?;
    if wrong("summary_15_before_order") {
        require(adds_up(&row), 15)?;
    }
    require(rising, 14)?;
    require(adds_up(&row), 15)?;
    Ok(row)
}

fn adds_up(row: &Row) -> bool {
    let most = match () {
        // Wrong: the bound of the blocks.
        _ if wrong("summary_full_refused") => 999_999,
        _ if wrong("summary_one_block_more") => 1_000_001,
        _ => 1_000_000,
    };
    let endings = row.endings();
    // Wrong: one of the tests is left out.
    row.blocks <= most
        && (row.blocks == endings + row.refusals || wrong("summary_sum"))
        && (row.iterations >= endings || wrong("summary_few_iterations"))
        && (row.iterations <= most_iterations(endings) || wrong("summary_many_iterations"))
}

/// The bound of the iterations, with the fault that is asked for.
fn most_iterations(endings: u64) -> u64 {
    let most = MOST_ITERATIONS * endings;
    match () {
        // Wrong: that of the limit; an iteration less, or one more.
        _ if wrong("summary_64_iterations") => 64 * endings,
        _ if wrong("summary_one_iteration_less") => most.saturating_sub(1),
        _ if wrong("summary_one_iteration_more") => most + 1,
        _ => most,
    }
}

/// The six values of a line with its byte 10.
fn values(line: &[u8]) -> Result<[u64; 6], u32> {
    let mut line = match line.strip_suffix(b"\n") {
        Some(line) => line,
        // Wrong: the last line may end without it.
        None if wrong("summary_line_end") => line,
        None => return Err(14),
    };
    // Wrong: spaces at either end.
    if wrong("summary_outer_spaces") {
        line = line.trim_ascii();
    }
    // Wrong: a tab is a space.
    let parts = |b: &u8| *b == b' ' || (*b == b'\t' && wrong("summary_tab"));
    let outer = line.first().is_some_and(parts) || line.last().is_some_and(parts);
    require(!outer, 14)?;
    // Wrong: one space at most.
    let words = line
        .split(parts)
        .filter(|word| !word.is_empty() || wrong("summary_one_space"));
    let values: Vec<u64> = words.map(value).collect::<Result<_, _>>()?;
    // Wrong: more values may follow.
    let values = match values.get(..6) {
        Some(first) if wrong("summary_seven_values") => first.to_vec(),
        _ => values,
    };
    values.try_into().map_err(|_| 14)
}

fn value(word: &[u8]) -> Result<u64, u32> {
    // Wrong: a sign.
    let word = match word {
        [b'-', b'0'] if wrong("summary_minus_zero") => b"0",
        [b'+', digits @ ..] if wrong("summary_plus") => digits,
        _ => word,
    };
    let most = match () {
        // Wrong: the most digits.
        _ if wrong("summary_ten_digits") => 10,
        _ if wrong("summary_eight_digits") => 8,
        _ => 9,
    };
    require((1..=most).contains(&word.len()), 14)?;
    let text = std::str::from_utf8(word).map_err(|_| 14_u32)?;
    require(text.bytes().all(|b| b.is_ascii_digit()), 14)?;
    text.parse().map_err(|_| 14)
}

/// The output text of accepted rows, with the fault that is asked for.
fn printed(mut rows: Vec<Row>) -> String {
    // Wrong: radios without blocks have lines.
    if !wrong("summary_empty_radios") {
        rows.retain(|row| row.blocks > 0);
    }
    rows.sort_by(before);
    let lines: String = rows.iter().map(line).collect();
    format!("{SUMMARY_NAMES}\n{lines}")
}

/// The first fraction and the second, compared.
fn fractions(one: (u64, u64), other: (u64, u64)) -> Ordering {
    (one.0 * other.1).cmp(&(other.0 * one.1))
}

fn before(one: &Row, other: &Row) -> Ordering {
    let share = |row: &Row| match () {
        // Wrong: the share as it is printed.
        _ if wrong("summary_order_as_printed") => (tenths(100 * row.criterion, row.blocks), 1000),
        _ => (row.criterion, row.blocks),
    };
    let iterations = |row: &Row| match () {
        // Wrong: the mean of an ending; the number itself; or the same for all.
        _ if wrong("summary_tie_by_mean") => (row.iterations, row.endings().max(1)),
        _ if wrong("summary_tie_by_number") => (row.iterations, 1),
        _ if wrong("summary_tie_by_radio") => (0, 1),
        _ => (row.iterations, row.blocks),
    };
    let by_share = fractions(share(one), share(other));
    let by_iterations = fractions(iterations(other), iterations(one));
    let by_radio = one.radio.cmp(&other.radio);
    // Wrong: one of the three the other way round.
    let turned = |order: Ordering, name| if wrong(name) { order.reverse() } else { order };
    turned(by_share, "summary_strongest_first")
        .then(turned(by_iterations, "summary_fewer_iterations_first"))
        .then(turned(by_radio, "summary_larger_radio_first"))
}

/// Ten times a fraction, rounded.
fn tenths(part: u64, whole: u64) -> u64 {
    let whole = whole.max(1);
    let (down, rest) = (10 * part / whole, 10 * part % whole);
    let up = match (2 * rest).cmp(&whole) {
        // Wrong: halves to even, or down, or everything down, or up.
        Ordering::Equal if wrong("summary_half_even") => down % 2 == 1,
        Ordering::Equal if wrong("summary_half_down") => false,
        Ordering::Less if wrong("summary_up") => rest > 0,
        order => order.is_ge() && !wrong("summary_down"),
    };
    down + u64::from(up)
}

fn line(row: &Row) -> String {
    let decimal = |tenths: u64| format!("{}.{}", tenths / 10, tenths % 10);
    // Wrong: the share of the endings; the mean of a block.
    let of = |name, one, other| if wrong(name) { other } else { one };
    let share_of = of("summary_share_of_endings", row.blocks, row.endings());
    let mean_of = of("summary_mean_of_blocks", row.endings(), row.blocks);
    // Wrong: no ending has a mean of 0.
    let mean = match row.endings() {
        0 if !wrong("summary_mean_0") => "-".to_string(),
        _ => decimal(tenths(row.iterations, mean_of)),
    };
    // Wrong: the endings by the limit.
    let refusals = of("summary_limit", row.refusals, row.limit);
    let share = decimal(tenths(100 * row.criterion, share_of));
    format!("{} {} {share}% {refusals} {mean}\n", row.radio, row.blocks)
}
