//! Lent slices with a fence of watched elements on both sides.

use crate::rng::Rng;
use std::ops::Not;

/// Watched elements before and after each lent slice.
const FENCE: usize = 16;

/// What a slice can hold.
pub trait Element: Copy {
    const C_TYPE: &'static str;
    /// The element as a number that shows every one of its bits.
    fn shown(self) -> i64;
    fn noise(rng: &mut Rng) -> Self;
}

impl Element for u8 {
    const C_TYPE: &'static str = "uint8_t";
    fn shown(self) -> i64 {
        i64::from(self)
    }
    fn noise(rng: &mut Rng) -> Self {
        rng.next() as u8
    }
}

impl Element for i16 {
    const C_TYPE: &'static str = "int16_t";
    fn shown(self) -> i64 {
        i64::from(self)
    }
    fn noise(rng: &mut Rng) -> Self {
        rng.next() as i16
    }
}

impl Element for u32 {
    const C_TYPE: &'static str = "uint32_t";
    fn shown(self) -> i64 {
        i64::from(self)
    }
    fn noise(rng: &mut Rng) -> Self {
        rng.next() as u32
    }
}

impl Element for usize {
    const C_TYPE: &'static str = "size_t";
    fn shown(self) -> i64 {
        self as i64
    }
    fn noise(rng: &mut Rng) -> Self {
        rng.next() as usize
    }
}

impl Element for f32 {
    const C_TYPE: &'static str = "float";
    fn shown(self) -> i64 {
        i64::from(self.to_bits())
    }
    fn noise(rng: &mut Rng) -> Self {
        let special = [f32::NAN, f32::INFINITY, -f32::INFINITY, -0.0];
        if rng.chance(50) {
            rng.pick(&special)
        } else {
            f32::from_bits(rng.next() as u32)
        }
    }
}

/// A lent slice and the fences around it, in one piece of memory.
#[derive(Clone)]
pub struct Fenced<T> {
    all: Vec<T>,
    len: usize,
}

impl<T: Element> Fenced<T> {
    /// A slice of the given length that begins with the contents; what they do
    /// not fill, and the fences, hold noise.
    pub fn new(rng: &mut Rng, contents: &[T], len: usize) -> Self {
        let mut all: Vec<T> = (0..len + 2 * FENCE).map(|_| T::noise(rng)).collect();
        let filled = contents.len().min(len);
        all[FENCE..FENCE + filled].copy_from_slice(&contents[..filled]);
        Fenced { all, len }
    }

    /// The first `len` of the contents; longer ones go on in the fence behind.
    pub fn cut(rng: &mut Rng, contents: &[T], len: usize) -> Self {
        let mut cut = Fenced::new(rng, contents, len);
        let behind = cut.all[FENCE + len..].iter_mut();
        for (element, &value) in behind.zip(contents.iter().skip(len)) {
            *element = value;
        }
        cut
    }

    /// A slice with noise in it, to be written.
    pub fn blank(rng: &mut Rng, len: usize) -> Self {
        Fenced::new(rng, &[], len)
    }

    pub fn len(&self) -> usize {
        self.len
    }

    pub fn slice(&self) -> &[T] {
        &self.all[FENCE..FENCE + self.len]
    }

    pub fn slice_mut(&mut self) -> &mut [T] {
        &mut self.all[FENCE..FENCE + self.len]
    }

    /// Where the slice begins, as a pointer that may reach the fences too.
    pub fn pointer(&mut self) -> *mut T {
        self.all.as_mut_ptr().wrapping_add(FENCE)
    }

    /// Every element, fences included.
    pub fn shown(&self, name: &'static str) -> Memory {
        Memory {
            name,
            c_type: T::C_TYPE,
            elements: self.all.iter().map(|v| v.shown()).collect(),
            start: FENCE,
            len: self.len,
        }
    }
}

impl<T: Element + Not<Output = T>> Fenced<T> {
    /// Turns every bit of the slice; the fences stay.
    pub fn turn(&mut self) {
        for element in self.slice_mut() {
            *element = !*element;
        }
    }
}

/// A fenced slice with its name, to be compared or printed.
#[derive(Clone, PartialEq, Eq)]
pub struct Memory {
    pub name: &'static str,
    pub c_type: &'static str,
    pub elements: Vec<i64>,
    pub start: usize,
    pub len: usize,
}
