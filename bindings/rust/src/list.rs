//! A short list without allocation.

use std::fmt;
use std::hash::{Hash, Hasher};
use std::ops::Deref;
use std::slice;

/// At most `N` values, held in place; it is used as a slice, and equal where the slices are.
#[derive(Clone, Copy)]
pub struct List<T, const N: usize> {
    cells: [T; N],
    count: usize,
}

impl<T: Copy, const N: usize> List<T, N> {
    /// The first `N` of `values`, or the first error among them. `filler` stands in unused cells.
    pub(crate) fn collect<E>(
        filler: T,
        values: impl Iterator<Item = Result<T, E>>,
    ) -> Result<Self, E> {
        let mut cells = [filler; N];
        let mut count = 0;
        for (cell, value) in cells.iter_mut().zip(values) {
            *cell = value?;
            count += 1;
        }
        Ok(Self { cells, count })
    }
}

impl<T, const N: usize> Deref for List<T, N> {
    type Target = [T];

    fn deref(&self) -> &[T] {
        &self.cells[..self.count]
    }
}

impl<'a, T, const N: usize> IntoIterator for &'a List<T, N> {
    type Item = &'a T;
    type IntoIter = slice::Iter<'a, T>;

    fn into_iter(self) -> Self::IntoIter {
        self.iter()
    }
}

impl<T: PartialEq, const N: usize> PartialEq for List<T, N> {
    fn eq(&self, other: &Self) -> bool {
        **self == **other
    }
}

impl<T: Eq, const N: usize> Eq for List<T, N> {}

impl<T: Hash, const N: usize> Hash for List<T, N> {
    fn hash<H: Hasher>(&self, state: &mut H) {
        (**self).hash(state);
    }
}

impl<T: fmt::Debug, const N: usize> fmt::Debug for List<T, N> {
    fn fmt(&self, f: &mut fmt::Formatter<'_>) -> fmt::Result {
        f.debug_list().entries(self).finish()
    }
}
