//! Message passing in Rust, by loops over blocks of d positions that the compiler can vectorise. The distance is a
//! variable.

fn add(a: i16, b: i16, top: i16) -> i16 {
    (a + b).min(top).max(-top)
}

fn f(a: i16, b: i16, k: i16) -> i16 {
    let size = a.abs().min(b.abs());
    let scaled = ((size * k) as u16 >> 4) as i16;
    let sign = (a ^ b) >> 15;
    (scaled ^ sign) - sign
}

/// One step over the distance d: both sides of each pair.
fn step(out: &mut [i16], x: &[i16], y: &[i16], d: usize, top: i16, k: i16) {
    let pairs = out
        .chunks_exact_mut(2 * d)
        .zip(x.chunks_exact(2 * d).zip(y.chunks_exact(2 * d)));
    for (out, (x, y)) in pairs {
        let (upper, lower) = out.split_at_mut(d);
        let (x_upper, x_lower) = x.split_at(d);
        let (y_upper, y_lower) = y.split_at(d);
        for i in 0..d {
            upper[i] = f(x_upper[i], add(x_lower[i], y_lower[i], top), k);
            lower[i] = add(f(x_upper[i], y_upper[i], k), x_lower[i], top);
        }
    }
}

fn iterate(left: &mut [i16], right: &mut [i16], m: usize, top: i16, k: i16) {
    let n = 1 << m;
    for s in (0..m).rev() {
        let (out, x) = left.split_at_mut((s + 1) * n);
        step(
            &mut out[s * n..],
            &x[..n],
            &right[s * n..][..n],
            n >> (s + 1),
            top,
            k,
        );
    }
    for s in 0..m {
        let (x, out) = right.split_at_mut((s + 1) * n);
        step(
            &mut out[..n],
            &x[s * n..],
            &left[(s + 1) * n..][..n],
            n >> (s + 1),
            top,
            k,
        );
    }
}

/// The soft outputs after `limit` iterations (criterion 0).
pub fn decode(block: &super::Block, limit: u32, soft: &mut [i16], work: &mut [i16]) {
    let (m, top, k) = (block.m, block.ceiling, block.scale);
    let n = 1 << m;
    let (left, right) = work[..2 * (m + 1) * n].split_at_mut((m + 1) * n);
    left.fill(0);
    right.fill(0);
    left[m * n..].copy_from_slice(&block.llr[..n]);
    for (right, frozen) in right.iter_mut().zip(&block.mask) {
        *right = if *frozen == 1 { top } else { 0 };
    }
    for _ in 0..limit {
        iterate(left, right, m, top, k);
    }
    let sums = left[..n].iter().zip(&right[..n]);
    let sums = sums.map(|(left, right)| add(*left, *right, top));
    for ((soft, frozen), sum) in soft.iter_mut().zip(&block.mask).zip(sums) {
        *soft = if *frozen == 1 { top } else { sum };
    }
}
