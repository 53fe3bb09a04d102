//! The programs on random texts.

use crate::judge::{Difference, Judge};
use crate::lists::draw_list;
use crate::rng::Rng;
use crate::texts::draw_text;
use second::text::MOST_BYTES;
use std::io::Write;
use std::process::{Command, Output, Stdio};

/// Paths of the programs to compare, where they are given.
pub struct Programs {
    pub report: Option<String>,
    pub tidy: Option<String>,
    pub radios: Option<String>,
}

impl Programs {
    /// In the order of the arguments of `compare`.
    pub fn from_list(list: &[String]) -> Self {
        Programs {
            report: list.first().cloned(),
            tidy: list.get(1).cloned(),
            radios: list.get(2).cloned(),
        }
    }

    /// Those that are given, as arguments again.
    pub fn list(&self) -> Vec<String> {
        let all = [&self.report, &self.tidy, &self.radios];
        all.into_iter().flatten().cloned().collect()
    }
}

/// Draws a text and compares the report that the program prints.
pub fn check_report(
    rng: &mut Rng,
    judge: &mut Judge,
    program: Option<&str>,
) -> Result<(), Difference> {
    let text = draw_text(rng).text;
    check(judge, "report", program, &text, &second::report(&text))
}

/// Draws a text and compares the tidy text that the program prints; at times
/// also that of the tidy text itself.
pub fn check_tidy(
    rng: &mut Rng,
    judge: &mut Judge,
    program: Option<&str>,
) -> Result<(), Difference> {
    let text = draw_text(rng).text;
    let tidy = second::tidy(&text);
    check(judge, "tidy", program, &text, &tidy)?;
    if rng.chance(10) && answer_of(&tidy) == 0 {
        check(judge, "tidy", program, &tidy, &tidy)?;
    }
    Ok(())
}

/// Draws a list of radios and compares the summary that the program prints.
pub fn check_radios(
    rng: &mut Rng,
    judge: &mut Judge,
    program: Option<&str>,
) -> Result<(), Difference> {
    let text = draw_list(rng);
    check(judge, "radios", program, &text, &second::summary(&text))
}

/// Hands the text to the program and compares what it printed.
fn check(
    judge: &mut Judge,
    kind: &str,
    program: Option<&str>,
    text: &[u8],
    expected: &[u8],
) -> Result<(), Difference> {
    let Some(program) = program else {
        judge.count_event(&format!("{kind}: left out, no program given"));
        return Ok(());
    };
    if judge.show {
        println!("printf '{}' | {program}", escaped(text));
    }
    let output = match printed(program, text) {
        Ok(output) => output,
        Err(error) => return Err(Difference(format!("{program} cannot be run: {error}"))),
    };
    if output.stdout != expected || output.status.code().is_none() {
        return Err(failure(program, text, &output, expected));
    }
    judge.count_answer(kind, answer_of(expected));
    if let Some(code) = output.status.code() {
        judge.count_event(&format!("{kind}: exit code {code}"));
    }
    if (MOST_BYTES - 1..=MOST_BYTES + 1).contains(&text.len()) {
        judge.count_event(&format!("{kind}: texts of {} bytes", text.len()));
    }
    Ok(())
}

fn printed(program: &str, text: &[u8]) -> std::io::Result<Output> {
    let mut child = Command::new(program)
        .stdin(Stdio::piped())
        .stdout(Stdio::piped())
        .stderr(Stdio::piped())
        .spawn()?;
    if let Some(mut stdin) = child.stdin.take() {
        // A program may stop reading a text that is too long.
        let _ = stdin.write_all(text);
    }
    child.wait_with_output()
}

/// The number in a refusal's text, 0 for any other.
pub fn answer_of(output: &[u8]) -> u32 {
    let text = String::from_utf8_lossy(output);
    let number = text.strip_prefix("refused\n").map(str::trim_end);
    number.and_then(|n| n.parse().ok()).unwrap_or(0)
}

fn failure(program: &str, text: &[u8], output: &Output, expected: &[u8]) -> Difference {
    Difference(format!(
        "{program} differs ({}) in\nprintf '{}' | {program}\nprinted: {}\nsecond library: {}\n",
        output.status,
        escaped(text),
        String::from_utf8_lossy(&output.stdout),
        String::from_utf8_lossy(expected)
    ))
}

/// The bytes in a form that the shell's printf takes.
fn escaped(text: &[u8]) -> String {
    let one = |&byte: &u8| match byte {
        b' ' | b'-' | b'a'..=b'z' | b'0'..=b'9' => char::from(byte).to_string(),
        b'\n' => "\\n".to_string(),
        _ => format!("\\{byte:03o}"),
    };
    text.iter().map(one).collect()
}
