//! Memory that is lent to the library: filled with garbage, with a guard on both sides.

/// How much of a guard stands on each side.
const EDGE: usize = 64;

pub struct Lent<T> {
    all: Vec<T>,
    /// all zero, as long as has been needed
    zero: Vec<T>,
    start: usize,
    length: usize,
    guard: T,
}

impl<T: Copy + PartialEq + Default> Lent<T> {
    pub fn new() -> Lent<T> {
        Lent { all: Vec::new(), zero: Vec::new(), start: 0, length: 0, guard: T::default() }
    }

    /// Gets `length` items ready, `shift` of them from where a line of the processor's memory may begin.
    pub fn fill(&mut self, shift: usize, length: usize, garbage: T, guard: T) {
        let (start, end) = (EDGE + shift, EDGE + shift + length);
        if self.all.len() < end + EDGE {
            self.all.resize(end + EDGE, guard);
        }
        if self.zero.len() < length {
            self.zero.resize(length, T::default());
        }
        self.all[..start].fill(guard);
        self.all[start..end].fill(garbage);
        self.all[end..end + EDGE].fill(guard);
        (self.start, self.length, self.guard) = (start, length, guard);
    }

    /// The same with these items.
    pub fn copy(&mut self, shift: usize, items: &[T], guard: T) {
        self.fill(shift, items.len(), guard, guard);
        self.slice().copy_from_slice(items);
    }

    pub fn slice(&mut self) -> &mut [T] {
        &mut self.all[self.start..self.start + self.length]
    }

    pub fn as_slice(&self) -> &[T] {
        &self.all[self.start..self.start + self.length]
    }

    pub fn guards_stay(&self) -> bool {
        let end = self.start + self.length;
        self.all[..self.start].iter().chain(&self.all[end..end + EDGE]).all(|x| *x == self.guard)
    }

    /// The first item from `from` on that is not zero.
    pub fn left(&self, from: usize) -> Option<usize> {
        let s = &self.as_slice()[from..];
        if s == &self.zero[..s.len()] {
            return None;
        }
        s.iter().position(|x| *x != T::default()).map(|i| from + i)
    }
}
