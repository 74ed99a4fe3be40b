//! Memory that is lent to an entry point, with guards on both sides.

/// Something that a guard can be made of.
pub trait Element: Copy + PartialEq + std::fmt::Debug {
    /// The low bits of a word.
    fn of(word: u64) -> Self;
}

impl Element for u8 {
    fn of(word: u64) -> u8 {
        word as u8
    }
}

impl Element for u16 {
    fn of(word: u64) -> u16 {
        word as u16
    }
}

impl Element for u32 {
    fn of(word: u64) -> u32 {
        word as u32
    }
}

/// The least number of guard elements on each side.
const GUARD: usize = 24;

/// A slice between guards, and what all of it should be after the call.
#[derive(Debug, Default)]
pub struct Lent<T> {
    memory: Vec<T>,
    expected: Vec<T>,
    from: usize,
    to: usize,
}

impl<T: Element> Lent<T> {
    /// Lays the elements between guards, which differ from case to case, as does the place where the slice begins.
    /// Unless [`Lent::expect`] says otherwise, they should be unchanged after the call.
    pub fn lay(&mut self, elements: &[T], case: u64) {
        let guard = |k: usize| T::of((case ^ k as u64).wrapping_mul(0xD6E8_FEB8_6659_FD93) >> 23);
        self.from = GUARD + (case % 8) as usize;
        self.to = self.from + elements.len();
        self.memory.clear();
        self.memory.extend((0..self.from).map(guard));
        self.memory.extend_from_slice(elements);
        self.memory
            .extend((self.from..self.from + GUARD).map(guard));
        self.expected.clone_from(&self.memory);
    }

    /// After the call the first elements should be these.
    pub fn expect(&mut self, elements: &[T]) {
        self.expect_at(0, elements);
    }

    /// After the call the elements from place `at` on should be these.
    pub fn expect_at(&mut self, at: usize, elements: &[T]) {
        let from = self.from + at;
        self.expected[from..from + elements.len()].copy_from_slice(elements);
    }

    /// The slice, to read.
    pub fn slice(&self) -> &[T] {
        &self.memory[self.from..self.to]
    }

    /// The slice, to write.
    pub fn slice_mut(&mut self) -> &mut [T] {
        &mut self.memory[self.from..self.to]
    }

    /// The first place where the memory, guards and all, is not what it should be, and both elements there.
    pub fn difference(&self) -> Option<(isize, T, T)> {
        if self.memory == self.expected {
            return None;
        }
        let both = self.memory.iter().zip(&self.expected);
        let place = both.clone().position(|(is, should)| is != should)?;
        let place_in_slice = place as isize - self.from as isize;
        Some((place_in_slice, self.memory[place], self.expected[place]))
    }
}
