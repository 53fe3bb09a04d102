//! What the benchmark and the curves share: blocks to decode, the proved decoder and fronts behind
//! their C interface, and the others.
pub mod blocks;
pub mod channel;
pub mod coder;
pub mod count;
pub mod fronts;
pub mod masks;
pub mod noise;
pub mod options;
pub mod plain;
pub mod plan;

use noise::Random;

/// A block to decode, and the settings that every decoder takes.
pub struct Block {
    pub m: usize,
    pub ceiling: i16,
    pub scale: i16,
    pub mask: Vec<u8>,
    pub llr: Vec<i16>,
}

impl Block {
    /// The code's rate: information positions for each position.
    pub fn rate(&self) -> f64 {
        let information = self.mask.iter().filter(|frozen| **frozen == 0).count();
        information as f64 / self.mask.len() as f64
    }
}

/// What a decoder leaves.
#[derive(PartialEq)]
pub struct Lent {
    pub soft: Vec<i16>,
    pub mark: Vec<u8>,
    pub coded_soft: Vec<i16>,
    pub coded_mark: Vec<u8>,
    pub work: Vec<i16>,
}

impl Lent {
    /// Whether an information position is wrong or tied; the message sent is all zero.
    pub fn is_wrong(&self, block: &Block) -> bool {
        self.mark
            .iter()
            .zip(&block.mask)
            .any(|(mark, frozen)| *frozen == 0 && *mark != 0)
    }
}

extern "C" {
    fn vedrogne_decode(
        settings: *const u32,
        settings_len: usize,
        mask: *const u8,
        mask_len: usize,
        llr: *const i16,
        llr_len: usize,
        soft: *mut i16,
        soft_len: usize,
        mark: *mut u8,
        mark_len: usize,
        coded_soft: *mut i16,
        coded_soft_len: usize,
        coded_mark: *mut u8,
        coded_mark_len: usize,
        work: *mut i16,
        work_len: usize,
        iterations: *mut u32,
        reason: *mut u32,
    ) -> u32;
    fn vedrogne_decode_radio(
        radio: u32,
        tallies: *mut u32,
        tallies_len: usize,
        settings: *const u32,
        settings_len: usize,
        mask: *const u8,
        mask_len: usize,
        llr: *const i16,
        llr_len: usize,
        soft: *mut i16,
        soft_len: usize,
        mark: *mut u8,
        mark_len: usize,
        coded_soft: *mut i16,
        coded_soft_len: usize,
        coded_mark: *mut u8,
        coded_mark_len: usize,
        work: *mut i16,
        work_len: usize,
        iterations: *mut u32,
        reason: *mut u32,
    ) -> u32;
}

pub fn lent(m: usize) -> Lent {
    let n = 1 << m;
    Lent {
        soft: vec![0; n],
        mark: vec![0; n],
        coded_soft: vec![0; n],
        coded_mark: vec![0; n],
        work: vec![0; 2 * (m + 1) * n],
    }
}

/// The list of settings for a block, with a criterion and its operand.
fn settings(block: &Block, criterion: (u32, u32), limit: u32) -> [u32; 6] {
    [
        block.m as u32,
        block.ceiling as u32,
        block.scale as u32,
        limit,
        criterion.0,
        criterion.1,
    ]
}

/// A call of the proved decoder: the iteration at which it ends, or the number of its refusal.
pub fn decode(settings: &[u32; 6], mask: &[u8], llr: &[i16], to: &mut Lent) -> Result<u32, u32> {
    let (mut iterations, mut reason) = (0, 0);
    // SAFETY: every pointer comes with the length of its own vector
    let refused = unsafe {
        vedrogne_decode(
            settings.as_ptr(),
            settings.len(),
            mask.as_ptr(),
            mask.len(),
            llr.as_ptr(),
            llr.len(),
            to.soft.as_mut_ptr(),
            to.soft.len(),
            to.mark.as_mut_ptr(),
            to.mark.len(),
            to.coded_soft.as_mut_ptr(),
            to.coded_soft.len(),
            to.coded_mark.as_mut_ptr(),
            to.coded_mark.len(),
            to.work.as_mut_ptr(),
            to.work.len(),
            &mut iterations,
            &mut reason,
        )
    };
    if refused == 0 {
        Ok(iterations)
    } else {
        Err(refused)
    }
}

/// The proved decoder, with a criterion and its operand; the iteration at which it ends.
pub fn proved(block: &Block, criterion: (u32, u32), limit: u32, to: &mut Lent) -> u32 {
    let settings = settings(block, criterion, limit);
    decode(&settings, &block.mask, &block.llr, to)
        .expect("the proved decoder refuses a block of the benchmark")
}

/// The same for a radio, with the call counted in a list of tallies; the iteration at which it ends.
pub fn proved_for_radio(
    radio: u32,
    tallies: &mut [u32; 320],
    block: &Block,
    criterion: (u32, u32),
    limit: u32,
    to: &mut Lent,
) -> u32 {
    let settings = settings(block, criterion, limit);
    let (mut iterations, mut reason) = (0, 0);
    // SAFETY: every pointer comes with the length of its own vector
    let refused = unsafe {
        vedrogne_decode_radio(
            radio,
            tallies.as_mut_ptr(),
            tallies.len(),
            settings.as_ptr(),
            settings.len(),
            block.mask.as_ptr(),
            block.mask.len(),
            block.llr.as_ptr(),
            block.llr.len(),
            to.soft.as_mut_ptr(),
            to.soft.len(),
            to.mark.as_mut_ptr(),
            to.mark.len(),
            to.coded_soft.as_mut_ptr(),
            to.coded_soft.len(),
            to.coded_mark.as_mut_ptr(),
            to.coded_mark.len(),
            to.work.as_mut_ptr(),
            to.work.len(),
            &mut iterations,
            &mut reason,
        )
    };
    assert_eq!(
        refused, 0,
        "the proved decoder refuses a block of the benchmark"
    );
    iterations
}

/// A decoder under criterion 0 or 1 with a limit; the iteration at which it ends.
pub type Decoder = fn(&Block, u32, u32, &mut Lent) -> u32;

macro_rules! c_decoder {
    ($(#[$about:meta])* $name:ident, $symbol:ident) => {
        $(#[$about])*
        pub fn $name(block: &Block, criterion: u32, limit: u32, to: &mut Lent) -> u32 {
            extern "C" {
                fn $symbol(
                    m: u32,
                    top: i16,
                    k: i16,
                    limit: u32,
                    criterion: u32,
                    mask: *const u8,
                    llr: *const i16,
                    soft: *mut i16,
                    mark: *mut u8,
                    coded_soft: *mut i16,
                    coded_mark: *mut u8,
                    work: *mut i16,
                ) -> u32;
            }
            // SAFETY: every vector has the elements that m asks for
            unsafe {
                $symbol(
                    block.m as u32,
                    block.ceiling,
                    block.scale,
                    limit,
                    criterion,
                    block.mask.as_ptr(),
                    block.llr.as_ptr(),
                    to.soft.as_mut_ptr(),
                    to.mark.as_mut_ptr(),
                    to.coded_soft.as_mut_ptr(),
                    to.coded_mark.as_mut_ptr(),
                    to.work.as_mut_ptr(),
                )
            }
        }
    };
}

c_decoder!(
    /// The C baseline.
    baseline,
    baseline_decode
);
c_decoder!(
    /// The decoder written by hand with SSE2 intrinsics, which scales sizes.
    sse2,
    sse2_decode
);
c_decoder!(
    /// The same with the signed product.
    sse2_signed,
    sse2_signed_decode
);

/// A block with this mask after a Gaussian channel, at a ratio Eb/N0 for rate one half.
pub fn noisy(mask: &[u8], db: f64, random: &mut Random) -> Block {
    let ceiling = 2047;
    Block {
        m: mask.len().ilog2() as usize,
        ceiling,
        scale: 15,
        mask: mask.to_vec(),
        llr: noise::llrs(mask.len(), db, 16.0, ceiling, random),
    }
}

/// A block that no channel makes: ceiling, scale, mask and LLRs are drawn evenly, with one information position at
/// least.
pub fn arbitrary(m: usize, random: &mut Random) -> Block {
    let n = 1 << m;
    let ceiling = 1 + random.below(2047) as i16;
    let mut mask: Vec<u8> = (0..n).map(|_| random.below(2) as u8).collect();
    mask[random.below(n) as usize] = 0;
    Block {
        m,
        ceiling,
        scale: 1 + random.below(16) as i16,
        mask,
        llr: (0..n)
            .map(|_| random.below(2 * ceiling as u64 + 1) as i16 - ceiling)
            .collect(),
    }
}
