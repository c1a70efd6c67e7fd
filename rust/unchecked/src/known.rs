//! Places of a slice that are known to be there, and not looked at again.
#![allow(unsafe_code)]

use std::slice::SliceIndex;

pub trait Known<T> {
    fn known<I: SliceIndex<[T]>>(&self, index: I) -> &I::Output;

    fn known_mut<I: SliceIndex<[T]>>(&mut self, index: I) -> &mut I::Output;

    fn split_known(&self, at: usize) -> (&[T], &[T]);
}

impl<T> Known<T> for [T] {
    #[inline(always)]
    fn known<I: SliceIndex<[T]>>(&self, index: I) -> &I::Output {
        // SAFETY: the verdicts and the test of 18 have shown that the place is
        // there; the reference panics where it isn't, and never does on the
        // comparison's inputs.
        unsafe { self.get_unchecked(index) }
    }

    #[inline(always)]
    fn known_mut<I: SliceIndex<[T]>>(&mut self, index: I) -> &mut I::Output {
        // SAFETY: as above.
        unsafe { self.get_unchecked_mut(index) }
    }

    #[inline(always)]
    fn split_known(&self, at: usize) -> (&[T], &[T]) {
        // SAFETY: as above.
        unsafe { self.split_at_unchecked(at) }
    }
}
