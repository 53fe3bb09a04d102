//! The proved coder and read-out, behind their C interface, and those of the baseline, which are plain loops in C.

/// A mask, with m and the number of its information positions.
pub struct Code {
    m: u32,
    mask: Vec<u8>,
    information: usize,
}

impl Code {
    pub fn new(mask: Vec<u8>) -> Code {
        assert!(mask.len().is_power_of_two());
        Code {
            m: mask.len().ilog2(),
            information: mask.iter().filter(|frozen| **frozen == 0).count(),
            mask,
        }
    }

    fn expect(&self, message: &[u8], block: &[u8]) {
        assert!(message.len() >= self.information && block.len() >= self.mask.len());
    }
}

/// Codes a message, or reads one out of a block.
pub type Coder = fn(&Code, &[u8], &mut [u8]);

macro_rules! proved {
    ($name:ident, $symbol:ident) => {
        pub fn $name(code: &Code, from: &[u8], to: &mut [u8]) {
            extern "C" {
                fn $symbol(
                    m: u32,
                    mask: *const u8,
                    mask_len: usize,
                    from: *const u8,
                    from_len: usize,
                    to: *mut u8,
                    to_len: usize,
                ) -> u32;
            }
            let mask = &code.mask;
            // SAFETY: every pointer comes with the length of its own slice
            let refused = unsafe {
                $symbol(
                    code.m,
                    mask.as_ptr(),
                    mask.len(),
                    from.as_ptr(),
                    from.len(),
                    to.as_mut_ptr(),
                    to.len(),
                )
            };
            assert_eq!(refused, 0, "a block of the benchmark is refused");
        }
    };
}

proved!(encode, vedrogne_encode);
proved!(read_out, vedrogne_read_out);

extern "C" {
    fn baseline_encode(m: u32, mask: *const u8, message: *const u8, block: *mut u8);
    fn baseline_read_out(m: u32, mask: *const u8, bits: *const u8, message: *mut u8);
}

pub fn plain_encode(code: &Code, message: &[u8], block: &mut [u8]) {
    code.expect(message, block);
    let mask = code.mask.as_ptr();
    // SAFETY: message and block have the elements that the mask asks for
    unsafe { baseline_encode(code.m, mask, message.as_ptr(), block.as_mut_ptr()) }
}

pub fn plain_read_out(code: &Code, bits: &[u8], message: &mut [u8]) {
    code.expect(message, bits);
    let mask = code.mask.as_ptr();
    // SAFETY: as above
    unsafe { baseline_read_out(code.m, mask, bits.as_ptr(), message.as_mut_ptr()) }
}
