//! The messages of belief propagation and one iteration over them.

/// All messages of one block: `left[s][i]` is L(s,i), `right[s][i]` is R(s,i).
pub struct Messages {
    m: usize,
    pub ceiling: i64,
    scale: i64,
    /// What f makes of k times the smaller size and of the sign: `sixteenth`.
    /// The self-test exchanges it for a wrong one.
    pub scaling: fn(i64, bool) -> i64,
    pub left: Vec<Vec<i64>>,
    pub right: Vec<Vec<i64>>,
}

/// A product of k and a size, divided by 16 and cut down, with the sign.
pub fn sixteenth(product: i64, negative: bool) -> i64 {
    let size = product / 16;
    if negative {
        -size
    } else {
        size
    }
}

impl Messages {
    /// The start: LLRs in column m of L, C at the frozen positions of column 0
    /// of R, and 0 everywhere else. Mask and LLRs have exactly N = 2^m values.
    pub fn start(m: usize, ceiling: i64, scale: i64, mask: &[i64], llr: &[i64]) -> Self {
        let zeros = vec![vec![0; 1 << m]; m + 1];
        let mut messages = Messages {
            m,
            ceiling,
            scale,
            scaling: sixteenth,
            left: zeros.clone(),
            right: zeros,
        };
        messages.left[m] = llr.to_vec();
        messages.right[0] = mask.iter().map(|&frozen| frozen * ceiling).collect();
        messages
    }

    /// A sum, cut to the ceiling.
    pub fn sum(&self, a: i64, b: i64) -> i64 {
        (a + b).clamp(-self.ceiling, self.ceiling)
    }

    /// Both messages of each position of column s, added.
    pub fn sums(&self, s: usize) -> Vec<i64> {
        let pairs = self.left[s].iter().zip(&self.right[s]);
        pairs.map(|(&l, &r)| self.sum(l, r)).collect()
    }

    /// The scaled smaller size with the product of the signs; 0 with a zero.
    pub fn f(&self, a: i64, b: i64) -> i64 {
        if a == 0 || b == 0 {
            return 0;
        }
        (self.scaling)(self.scale * a.abs().min(b.abs()), (a < 0) != (b < 0))
    }

    /// One iteration: L by steps m-1 down to 0, then R by steps 0 up to m-1.
    pub fn iterate(&mut self) {
        for s in (0..self.m).rev() {
            self.left_step(s);
        }
        for s in 0..self.m {
            self.right_step(s);
        }
    }

    /// The pairs (i, j) of upper and lower positions at step s.
    fn pairs(&self, s: usize) -> impl Iterator<Item = (usize, usize)> {
        let distance = 1 << (self.m - 1 - s);
        let all = 0..1_usize << self.m;
        all.filter(move |i| i & distance == 0)
            .map(move |i| (i, i + distance))
    }

    fn left_step(&mut self, s: usize) {
        for (i, j) in self.pairs(s) {
            let (left_i, left_j) = (self.left[s + 1][i], self.left[s + 1][j]);
            let (right_i, right_j) = (self.right[s][i], self.right[s][j]);
            self.left[s][i] = self.f(left_i, self.sum(left_j, right_j));
            self.left[s][j] = self.sum(self.f(left_i, right_i), left_j);
        }
    }

    fn right_step(&mut self, s: usize) {
        for (i, j) in self.pairs(s) {
            let (left_i, left_j) = (self.left[s + 1][i], self.left[s + 1][j]);
            let (right_i, right_j) = (self.right[s][i], self.right[s][j]);
            self.right[s + 1][i] = self.f(right_i, self.sum(left_j, right_j));
            self.right[s + 1][j] = self.sum(self.f(right_i, left_i), right_j);
        }
    }
}
