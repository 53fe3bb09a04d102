//! `selftest` for the limit, in each function that tests it.

use crate::agree::setting_word;
use crate::plan::LIMIT;
use crate::selftest::wrong;
use second::Settings;

/// The limit that a function takes another one for, with the fault of this
/// function that is asked for.
fn limit_taken_as(function: &str, limit: i64) -> i64 {
    let wrong = |fault: &str| wrong(&format!("{function}_limit_{fault}"));
    match limit {
        // Wrong: a limit just outside the range is accepted.
        0 if wrong("0_accepted") => 1,
        65 if wrong("65_accepted") => 64,
        // Wrong: the largest limit is refused, or has an iteration less.
        64 if wrong("64_refused") => 65,
        64 if wrong("64_less_one") => 63,
        // Wrong: the former largest limit is accepted, or all that were.
        200 if wrong("200_accepted") => 64,
        65..=200 if wrong("not_lowered") => 64,
        _ => limit,
    }
}

/// The settings that a function answers by.
pub fn taken_as(function: &str, settings: &Settings) -> Settings {
    Settings {
        limit: limit_taken_as(function, settings.limit),
        ..*settings
    }
}

/// The text that a function answers by, as long as the one it is handed.
pub fn text_taken_as(function: &str, text: &[u8]) -> Vec<u8> {
    let mut text = text.to_vec();
    let word = setting_word(&mut text, LIMIT).unwrap_or_default();
    let width = word.len();
    let digits = word.iter().all(u8::is_ascii_digit);
    let said = String::from_utf8_lossy(word).parse().ok();
    if let Some(limit) = said.filter(|_| digits) {
        let taken = limit_taken_as(function, limit);
        word.copy_from_slice(format!("{taken:0width$}").as_bytes());
    }
    text
}
