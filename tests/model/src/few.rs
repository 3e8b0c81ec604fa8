//! A short list held in place: at most N things.

use std::ops::{Deref, DerefMut};

#[derive(Clone, Copy)]
pub struct Few<T, const N: usize> {
    length: usize,
    things: [T; N],
}

impl<T: Copy + Default, const N: usize> Few<T, N> {
    /// The list of these things, if they are not too many.
    pub fn new(things: &[T]) -> Option<Self> {
        let mut few = Few { length: things.len(), things: [T::default(); N] };
        few.things.get_mut(..things.len())?.copy_from_slice(things);
        Some(few)
    }
}

impl<T, const N: usize> Deref for Few<T, N> {
    type Target = [T];
    fn deref(&self) -> &[T] {
        &self.things[..self.length]
    }
}

impl<T, const N: usize> DerefMut for Few<T, N> {
    fn deref_mut(&mut self) -> &mut [T] {
        &mut self.things[..self.length]
    }
}
