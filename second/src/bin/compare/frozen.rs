//! Frozen positions, whose bits are certain whatever their messages say: what
//! holds of an accepted call on its own.

use second::text::Block;

/// The frozen positions where a call has left another soft output than C or
/// another mark than 0, one line each.
pub fn uncertain(ceiling: i64, mask: &[u8], soft: &[i16], mark: &[u8]) -> String {
    let frozen = (0..mask.len()).filter(|&i| mask[i] == 1);
    let wrong = frozen.filter(|&i| i64::from(soft[i]) != ceiling || mark[i] != 0);
    wrong
        .map(|i| told(&format!("{i} {} {}", soft[i], mark[i])))
        .collect()
}

/// The same for the report of an accepted block.
pub fn uncertain_report(block: &Block, report: &[u8]) -> String {
    let report = String::from_utf8_lossy(report);
    let rows = block.mask.iter().zip(report.lines().skip(3)).enumerate();
    let frozen = rows.filter(|(_, (&value, _))| value == 1);
    let certain = |i: usize| format!("{i} {} 0 ", block.settings.ceiling);
    let wrong = frozen.filter(|(i, (_, row))| !row.starts_with(&certain(*i)));
    wrong.map(|(_, (_, row))| told(row)).collect()
}

fn told(row: &str) -> String {
    format!("a frozen position is not certain (position, soft output, mark): {row}\n")
}
