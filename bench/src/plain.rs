//! Message passing in Rust as one would first write it: a test for each position, and the checks of the language on
//! each index.

fn add(a: i16, b: i16, top: i16) -> i16 {
    (a + b).clamp(-top, top)
}

fn f(a: i16, b: i16, k: i16) -> i16 {
    let size = k * a.abs().min(b.abs()) / 16;
    if (a < 0) == (b < 0) {
        size
    } else {
        -size
    }
}

/// The new message of position i from the columns at x and y, over the distance d.
fn message(work: &[i16], x: usize, y: usize, i: usize, d: usize, top: i16, k: i16) -> i16 {
    if i & d == 0 {
        f(work[x + i], add(work[x + i + d], work[y + i + d], top), k)
    } else {
        add(f(work[x + i - d], work[y + i - d], k), work[x + i], top)
    }
}

fn iterate(work: &mut [i16], m: usize, top: i16, k: i16) {
    let n = 1 << m;
    for s in (0..m).rev() {
        for i in 0..n {
            work[s * n + i] = message(work, (s + 1) * n, (m + 1 + s) * n, i, n >> (s + 1), top, k);
        }
    }
    for s in 0..m {
        for i in 0..n {
            work[(m + 2 + s) * n + i] =
                message(work, (m + 1 + s) * n, (s + 1) * n, i, n >> (s + 1), top, k);
        }
    }
}

/// The soft outputs after `limit` iterations (criterion 0).
pub fn decode(block: &super::Block, limit: u32, soft: &mut [i16], work: &mut [i16]) {
    let (m, top, k) = (block.m, block.ceiling, block.scale);
    let n = 1 << m;
    work[..2 * (m + 1) * n].fill(0);
    for i in 0..n {
        work[m * n + i] = block.llr[i];
        work[(m + 1) * n + i] = if block.mask[i] == 1 { top } else { 0 };
    }
    for _ in 0..limit {
        iterate(work, m, top, k);
    }
    for i in 0..n {
        soft[i] = if block.mask[i] == 1 {
            top
        } else {
            add(work[i], work[(m + 1) * n + i], top)
        };
    }
}
