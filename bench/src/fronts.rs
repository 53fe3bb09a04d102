//! The proved fronts for one antenna and for two, behind their C interface, and those in C. Each returns 0 or the
//! number of a refusal.

/// What an antenna receives of a block: samples, and the factor that makes LLRs of them.
#[derive(Clone)]
pub struct Branch {
    pub factor: f32,
    pub samples: Vec<f32>,
}

extern "C" {
    fn vedrogne_front_gaussian(
        m: u32,
        ceiling: u32,
        factor: f32,
        samples: *const f32,
        samples_len: usize,
        llr: *mut i16,
        llr_len: usize,
    ) -> u32;
    fn vedrogne_front_flipping(
        m: u32,
        ceiling: u32,
        weight: f32,
        samples: *const f32,
        samples_len: usize,
        llr: *mut i16,
        llr_len: usize,
    ) -> u32;
    fn vedrogne_front_erasing(
        m: u32,
        ceiling: u32,
        samples: *const f32,
        samples_len: usize,
        llr: *mut i16,
        llr_len: usize,
    ) -> u32;
    fn vedrogne_front_two(
        m: u32,
        ceiling: u32,
        first_factor: f32,
        second_factor: f32,
        first: *const f32,
        first_len: usize,
        second: *const f32,
        second_len: usize,
        llr: *mut i16,
        llr_len: usize,
    ) -> u32;
}

/// Makes LLRs of one branch or of two.
pub type Front = fn(usize, i16, &[Branch], &mut [i16]) -> u32;

/// The LLRs of one branch or of two, by the proved front.
pub fn proved(m: usize, ceiling: i16, branches: &[Branch], llr: &mut [i16]) -> u32 {
    let (m, ceiling) = (m as u32, ceiling as u32);
    // SAFETY: every pointer comes with the length of its own slice
    unsafe {
        match branches {
            [one] => vedrogne_front_gaussian(
                m,
                ceiling,
                one.factor,
                one.samples.as_ptr(),
                one.samples.len(),
                llr.as_mut_ptr(),
                llr.len(),
            ),
            [first, second] => vedrogne_front_two(
                m,
                ceiling,
                first.factor,
                second.factor,
                first.samples.as_ptr(),
                first.samples.len(),
                second.samples.as_ptr(),
                second.samples.len(),
                llr.as_mut_ptr(),
                llr.len(),
            ),
            _ => panic!("one branch or two"),
        }
    }
}

/// The LLRs of a flipping channel, by the proved front.
pub fn flipping(m: usize, ceiling: i16, weight: f32, samples: &[f32], llr: &mut [i16]) -> u32 {
    let (from, to) = (samples.as_ptr(), llr.as_mut_ptr());
    // SAFETY: every pointer comes with the length of its own slice
    unsafe {
        vedrogne_front_flipping(
            m as u32,
            ceiling as u32,
            weight,
            from,
            samples.len(),
            to,
            llr.len(),
        )
    }
}

/// The LLRs of an erasing channel, by the proved front.
pub fn erasing(m: usize, ceiling: i16, samples: &[f32], llr: &mut [i16]) -> u32 {
    let (from, to) = (samples.as_ptr(), llr.as_mut_ptr());
    // SAFETY: every pointer comes with the length of its own slice
    unsafe { vedrogne_front_erasing(m as u32, ceiling as u32, from, samples.len(), to, llr.len()) }
}

macro_rules! c_front {
    ($(#[$about:meta])* $name:ident, $gaussian:ident, $two:ident) => {
        $(#[$about])*
        pub fn $name(m: usize, ceiling: i16, branches: &[Branch], llr: &mut [i16]) -> u32 {
            extern "C" {
                fn $gaussian(m: u32, top: i16, factor: f32, samples: *const f32, llr: *mut i16) -> u32;
                fn $two(
                    m: u32,
                    top: i16,
                    first_factor: f32,
                    second_factor: f32,
                    first: *const f32,
                    second: *const f32,
                    llr: *mut i16,
                ) -> u32;
            }
            let n = 1 << m;
            assert!(llr.len() >= n && branches.iter().all(|branch| branch.samples.len() >= n));
            let to = llr.as_mut_ptr();
            // SAFETY: every slice has the elements that m asks for
            unsafe {
                match branches {
                    [one] => $gaussian(m as u32, ceiling, one.factor, one.samples.as_ptr(), to),
                    [first, second] => $two(
                        m as u32,
                        ceiling,
                        first.factor,
                        second.factor,
                        first.samples.as_ptr(),
                        second.samples.as_ptr(),
                        to,
                    ),
                    _ => panic!("one branch or two"),
                }
            }
        }
    };
}

c_front!(
    /// The C baseline's, which test nothing.
    baseline,
    baseline_front_gaussian,
    baseline_front_two
);
c_front!(
    /// The C baseline's behind a loop that tests whether every sample is finite.
    tested,
    tested_front_gaussian,
    tested_front_two
);
