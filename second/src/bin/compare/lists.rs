//! Lists of radios for the summary, good ones and damaged ones.

use crate::damage::damage;
use crate::generate::fault_count;
use crate::rng::Rng;
use crate::tallies::{draw_iterations, most_iterations};
use crate::texts::{widen_line, LONG};
use second::summary::LIST_NAMES;
use second::LARGEST_LIMIT;

/// Radio, blocks, by criterion, by limit, refusals, iterations.
type Row = [i64; 6];

const BLOCKS: usize = 1;
const REFUSALS: usize = 4;
const ITERATIONS: usize = 5;
const FULL: i64 = 1_000_000;

pub fn draw_list(rng: &mut Rng) -> Vec<u8> {
    let mut rows = draw_rows(rng);
    // Good; wrong numbers; misspelled; both; any damage on top of it.
    let (faults, misspelled) = match rng.below(10) {
        0..=4 => (0, 0),
        5..=7 => (1 + fault_count(rng), 0),
        8 => (0, 1),
        _ => (1 + fault_count(rng), 1),
    };
    let damages = rng.pick(&[0, 0, 0, 0, 0, 0, 0, 1, 1, 2]);
    if rows.is_empty() && faults + misspelled > 0 {
        rows.push([63, 0, 0, 0, 0, 0]);
    }
    // The row that mostly gets them, so that a row has several.
    let place = rng.below(rows.len().max(1));
    for _ in 0..faults {
        spoil_rows(rng, &mut rows, place);
    }
    let style = rng.below(3);
    let mut lines: Vec<Vec<u8>> = rows.iter().map(|row| write_line(rng, style, row)).collect();
    for _ in 0..misspelled {
        misspell(rng, &mut lines[place]);
    }
    lines.insert(0, [LIST_NAMES, b"\n"].concat());
    if rng.chance(8) && !rows.is_empty() {
        let size: usize = lines.iter().map(Vec::len).sum();
        let line = 1 + rng.below(rows.len());
        widen_line(&mut lines[line], rng.pick(&LONG) - size);
    }
    (0..damages).fold(lines.concat(), |text, _| damage(rng, text))
}

/// Rows that nobody refuses, for no radio, for some or for all.
fn draw_rows(rng: &mut Rng) -> Vec<Row> {
    let percent = rng.pick(&[0, 3, 3, 5, 10, 10, 30, 100]);
    let listed: Vec<i64> = (0..64).filter(|_| rng.chance(percent)).collect();
    // Of one kind or of several.
    let kinds = rng.pick(&[&[0][..], &[0], &[1], &[2], &[3], &[0, 1, 2, 3]]);
    let one = |radio| {
        let kind = rng.pick(kinds);
        let [blocks, criterion, endings, iterations] = match kind {
            0 => in_proportion(rng),
            1 => at_a_half(rng),
            2 => nearly_full(rng),
            _ => any_numbers(rng),
        };
        let limit = endings - criterion;
        [
            radio,
            blocks,
            criterion,
            limit,
            blocks - endings,
            iterations,
        ]
    };
    listed.into_iter().map(one).collect()
}

/// Blocks, by criterion, endings and iterations such that several radios have
/// equal shares, and of these several equally many iterations to a block.
fn in_proportion(rng: &mut Rng) -> [i64; 4] {
    let (part, whole) = rng.pick(&[(0, 1), (1, 2), (1, 2), (1, 3), (2, 3), (1, 1)]);
    let times = rng.pick(&[1, 2, 3, 4, 10, 999, 333_333]);
    let (criterion, blocks) = (part * times, whole * times);
    let endings = match rng.below(3) {
        0 => rng.between(criterion, blocks),
        1 => blocks,
        _ => criterion,
    };
    // So many to a block as the last one says only old tallies have.
    let to_a_block = rng.pick(&[1, 1, 2, 3, 7, LARGEST_LIMIT + 1]);
    let iterations = to_a_block * blocks + rng.pick(&[0, 0, 0, 1, -1]);
    [
        blocks,
        criterion,
        endings,
        iterations.clamp(endings, most_iterations(endings)),
    ]
}

/// Numbers whose share in tenths of a percent, or whose mean in tenths, is at a
/// half or just beside it.
fn at_a_half(rng: &mut Rng) -> [i64; 4] {
    let blocks = rng.pick(&[4, 16, 20, 48, 80, 160, 400, 2000, 16_000, FULL]);
    let beside = rng.pick(&[-1, 0, 0, 0, 1]);
    let criterion = (2 * rng.between(0, 999) + 1) * blocks / 2000 + beside;
    let criterion = criterion.clamp(0, blocks);
    let endings = match rng.below(3) {
        0 => rng.between(criterion, blocks),
        1 => (criterion + 19) / 20 * 20,
        _ => blocks,
    };
    let endings = endings.min(blocks);
    let beside = rng.pick(&[-1, 0, 0, 0, 1]);
    let iterations = (2 * rng.between(10, 1999) + 1) * endings / 20 + beside;
    [
        blocks,
        criterion,
        endings,
        iterations.clamp(endings, most_iterations(endings)),
    ]
}

/// Nearly as many blocks as a tally holds, with shares that print alike.
fn nearly_full(rng: &mut Rng) -> [i64; 4] {
    let blocks = FULL - rng.pick(&[0, 0, 1, 1, 2, 3, 10]);
    let criterion = match rng.below(4) {
        0 => blocks,
        1 => rng.between(0, 2),
        _ => blocks / 3 + rng.between(-1, 1),
    };
    let endings = blocks - rng.pick(&[0, 0, 1, 2]).min(blocks - criterion);
    let iterations = match rng.below(3) {
        0 => endings,
        1 => most_iterations(endings) - rng.between(0, 2),
        _ => 3 * blocks + rng.between(-2, 2),
    };
    [blocks, criterion, endings, iterations]
}

/// Anything, and nothing at times.
fn any_numbers(rng: &mut Rng) -> [i64; 4] {
    let most = rng.pick(&[0, 1, 9, 100, 10_000, FULL]);
    let blocks = rng.between(0, most);
    let endings = rng.between(0, blocks);
    let criterion = rng.between(0, endings);
    [blocks, criterion, endings, draw_iterations(rng, endings)]
}

/// Puts a row, mostly the one at this place, out of order, or one of its numbers
/// out of its range.
fn spoil_rows(rng: &mut Rng, rows: &mut Vec<Row>, place: usize) {
    let other = rng.below(rows.len());
    let place = if rng.chance(70) { place } else { other };
    let row = &mut rows[place];
    let endings = row[2] + row[3];
    match rng.below(12) {
        0 | 1 => row[0] = rng.pick(&[64, 64, 65, 99, 255, 256, 65_536, 999_999_999]),
        2 => rows.swap(place, other),
        3 => rows[place][0] = rows[other][0],
        4 => rows.insert(place, rows[other]),
        5 => row[BLOCKS] += rng.pick(&[-1, 1]),
        6 => row[ITERATIONS] = endings - 1,
        7 => row[ITERATIONS] = most_iterations(endings) + 1,
        8 | 9 => {
            // The blocks are full, or one more, and add up.
            row[BLOCKS] = (FULL + rng.below(2) as i64).max(endings);
            row[REFUSALS] = row[BLOCKS] - endings;
        }
        10 => row[1 + rng.below(5)] = rng.pick(&[999_999_999, 0, 100_000_000]),
        _ => row[rng.below(6)] += rng.pick(&[1, -1, 1_000_000_000, 0x1_0000_0000]),
    }
}

/// Changes a line so that it isn't six values and its end.
fn misspell(rng: &mut Rng, line: &mut Vec<u8>) {
    let spaces: Vec<usize> = (0..line.len()).filter(|&i| line[i] == b' ').collect();
    let (word, last) = (rng.pick(&spaces) + 1, spaces[spaces.len() - 1] + 1);
    let end = line.len() - 1;
    match rng.below(11) {
        0 | 1 => line[word - 1] = rng.pick(b"\t\t\t\n\r,;\0\xa0"),
        2 => line.insert(word, rng.pick(b"-+")),
        3 => line.insert(0, rng.pick(b" -+")),
        4 => line.insert(end, rng.pick(b" \r\t")),
        5 => put(line, end, b" 0"),
        6 => drop(line.drain(last - 1..end)),
        7 => drop(line.splice(last..end, rng.pick(&[*b"-0", *b"+0", *b"0x"]))),
        8 => line.push(b'\n'),
        9 => drop(line.pop()),
        _ => {
            // One digit more than a value may have.
            let digits = line[word..].iter().take_while(|b| b.is_ascii_digit());
            let zeros = 10_usize.saturating_sub(digits.count());
            put(line, word, &vec![b'0'; zeros]);
        }
    }
}

fn put(line: &mut Vec<u8>, place: usize, more: &[u8]) {
    line.splice(place..place, more.iter().copied());
}

/// Values in plain form, or with leading zeros and more spaces.
fn write_line(rng: &mut Rng, style: usize, values: &Row) -> Vec<u8> {
    let mut line = String::new();
    for (place, value) in values.iter().enumerate() {
        if place > 0 {
            let wide = style == 2 && rng.chance(20);
            line += &" ".repeat(if wide { 2 + rng.below(4) } else { 1 });
        }
        let zeros = style > 0 && rng.chance(30);
        let digits = if zeros { 1 + rng.below(9) } else { 1 };
        line += &format!("{value:0digits$}");
    }
    line.push('\n');
    line.into_bytes()
}
