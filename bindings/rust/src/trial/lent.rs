//! Memory to lend, with canaries around it.
use std::sync::atomic::{AtomicUsize, Ordering};

/// Elements compared by their bits.
pub trait Element: Copy {
    const CANARY: Self;
    fn bits(self) -> u32;

    fn is_nan(self) -> bool {
        false
    }
}

impl Element for u8 {
    const CANARY: u8 = 0xA5;
    fn bits(self) -> u32 {
        u32::from(self)
    }
}

impl Element for f32 {
    const CANARY: f32 = -1234.5678;
    fn bits(self) -> u32 {
        self.to_bits()
    }

    fn is_nan(self) -> bool {
        self.is_nan()
    }
}

/// At least how many elements stand before and behind what is lent.
const MARGIN: usize = 32;

static LOANS: AtomicUsize = AtomicUsize::new(0);

/// Memory to lend, with canaries before and behind it, and what it held before. Every
/// fourth loan stands alone in its memory, so that a tool that watches the memory's ends
/// sees what is read beside it.
pub struct Lent<T> {
    all: Vec<T>,
    before: Vec<T>,
    start: usize,
    end: usize,
}

impl<T: Element> Lent<T> {
    pub fn new(contents: &[T]) -> Lent<T> {
        let margin =
            if LOANS.fetch_add(1, Ordering::Relaxed).is_multiple_of(4) { 0 } else { MARGIN };
        // so that not every loan starts at a multiple of 16
        let start = if margin > 0 { margin + contents.len() % 17 } else { 0 };
        let end = start + contents.len();
        let mut all = Vec::with_capacity(end + margin);
        all.resize(start, T::CANARY);
        all.extend_from_slice(contents);
        all.resize(end + margin, T::CANARY);
        Lent { before: all.clone(), all, start, end }
    }

    pub fn lend(&mut self) -> &mut [T] {
        &mut self.all[self.start..self.end]
    }

    pub fn now(&self) -> &[T] {
        &self.all[self.start..self.end]
    }

    /// How many elements changed that lie outside the first `written` of what was
    /// lent, canaries included.
    pub fn strayed(&self, written: usize) -> u64 {
        let free = self.start + written;
        differing(&self.all[..self.start], &self.before[..self.start])
            + differing(&self.all[free..], &self.before[free..])
    }
}

fn differing<T: Element>(now: &[T], before: &[T]) -> u64 {
    now.iter().zip(before).filter(|(a, b)| a.bits() != b.bits()).count() as u64
}
