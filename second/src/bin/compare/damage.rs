//! Damage to texts.

use crate::rng::Rng;

/// What may be put behind the end of a text.
const BEHIND: [&[u8]; 7] = [
    b"\n",
    b" ",
    b"0",
    b"\0",
    b"2 0 0\n",
    b"63 0 0 0 0 0\n",
    b"#",
];

/// The text with one damage of a random kind.
pub fn damage(rng: &mut Rng, mut text: Vec<u8>) -> Vec<u8> {
    if text.is_empty() {
        return vec![rng.next() as u8];
    }
    let place = draw_place(rng, &text);
    match rng.below(18) {
        0 => text[place] ^= 1 << rng.below(8),
        1 => text[place] = rng.next() as u8,
        2 => text[place] = rng.pick(b"0123456789 -+\t\n\r\x00.x"),
        3 | 4 => text.insert(place, rng.pick(b"0123456789 -+\t\n\r\x00.x")),
        5 => {
            text.remove(place);
        }
        6 => text.truncate(place),
        7 => {
            text.pop();
        }
        8 => text.extend_from_slice(rng.pick(&BEHIND)),
        9..=12 => {
            let place = draw_value(rng, &text).unwrap_or(place);
            replace_value(rng, &mut text, place);
        }
        13 => swap_space(rng, &mut text),
        _ => text = damage_lines(rng, &text),
    }
    text
}

/// A place in the text, often in its first lines.
fn draw_place(rng: &mut Rng, text: &[u8]) -> usize {
    let within = if rng.chance(50) {
        text.len().min(90)
    } else {
        text.len()
    };
    rng.below(within)
}

/// The place of some digit, if there is one.
fn draw_value(rng: &mut Rng, text: &[u8]) -> Option<usize> {
    let start = draw_place(rng, text);
    let after = text[start..].iter().position(u8::is_ascii_digit);
    after.map(|distance| start + distance)
}

/// Replaces the value at a place: by another form of the same value, good or
/// bad, or by another value.
fn replace_value(rng: &mut Rng, text: &mut Vec<u8>, place: usize) {
    let inside = |b: &u8| b.is_ascii_digit() || *b == b'-';
    let start = text[..place].iter().rposition(|b| !inside(b));
    let start = start.map_or(0, |before| before + 1);
    let end = text[start..].iter().position(|b| !inside(b));
    let end = end.map_or(text.len(), |len| start + len);
    let form = if rng.chance(60) {
        same_value(rng, &text[start..end])
    } else {
        let forms: [&[u8]; 12] = [
            b"",
            b"-",
            b"--1",
            b"+1",
            b"0000001",
            b"1000000",
            b"-000001",
            b"999999",
            b"-999999",
            b"1e1",
            b"0x1",
            b"4294967297",
        ];
        rng.pick(&forms).to_vec()
    };
    text.splice(start..end, form);
}

/// The value of a word in another form.
fn same_value(rng: &mut Rng, word: &[u8]) -> Vec<u8> {
    let minus = word.starts_with(b"-");
    let digits: String = word
        .iter()
        .filter(|&&b| b != b'-')
        .map(|&b| char::from(b))
        .collect();
    let sign = if minus { "-" } else { "" };
    // The most digits that a block's text and a list of radios may have, and one more.
    let most = rng.pick(&[6, 9]);
    let form = match rng.below(9) {
        0 => format!("{sign}{digits:0>most$}"),
        1 | 2 => format!("{sign}{digits:0>0$}", most + 1),
        3 => format!("+{digits}"),
        4 => format!("{sign}+{digits}"),
        5 => format!("-{sign}{digits}"),
        6 => format!("{sign} {digits}"),
        7 => format!("{sign}{digits}."),
        _ => sign.to_string(),
    };
    form.into_bytes()
}

/// Turns one space into a tab, two spaces, none, or a byte 10.
fn swap_space(rng: &mut Rng, text: &mut Vec<u8>) {
    let spaces: Vec<usize> = (0..text.len()).filter(|&i| text[i] == b' ').collect();
    if spaces.is_empty() {
        return;
    }
    let place = rng.pick(&spaces);
    let forms: [&[u8]; 5] = [b"\t", b"  ", b"", b"\n", b"\xa0"];
    text.splice(place..=place, rng.pick(&forms).iter().copied());
}

/// Drops, doubles, swaps or frays whole lines.
fn damage_lines(rng: &mut Rng, text: &[u8]) -> Vec<u8> {
    let mut lines: Vec<Vec<u8>> = text
        .split_inclusive(|&b| b == b'\n')
        .map(<[u8]>::to_vec)
        .collect();
    let count = lines.len();
    let line = rng.below(count);
    match rng.below(7) {
        0 => {
            lines.remove(line);
        }
        1 => lines.insert(line, lines[line].clone()),
        2 => lines.swap(line, rng.below(count)),
        3 => lines[line].insert(0, b' '),
        4 => {
            let end = lines[line].len() - 1;
            lines[line].splice(
                end..end,
                rng.pick(&[&b" "[..], b"\r", b" 0", b"0"]).iter().copied(),
            );
        }
        5 => lines.insert(line, b"\n".to_vec()),
        _ => {
            // Drop the last value of the line.
            let end = lines[line].iter().rposition(|&b| b == b' ').unwrap_or(0);
            lines[line].truncate(end);
            lines[line].push(b'\n');
        }
    }
    lines.concat()
}
