//! Places of a slice that are known to be there, by a verdict or by the test of
//! 18. They are looked at all the same: only `rust/unchecked`, which compiles
//! these modules with a `known` of its own, trusts them, to be timed.

use std::slice::SliceIndex;

pub trait Known<T> {
    fn known<I: SliceIndex<[T]>>(&self, index: I) -> &I::Output;

    fn known_mut<I: SliceIndex<[T]>>(&mut self, index: I) -> &mut I::Output;

    fn split_known(&self, at: usize) -> (&[T], &[T]);
}

impl<T> Known<T> for [T] {
    #[inline(always)]
    fn known<I: SliceIndex<[T]>>(&self, index: I) -> &I::Output {
        &self[index]
    }

    #[inline(always)]
    fn known_mut<I: SliceIndex<[T]>>(&mut self, index: I) -> &mut I::Output {
        &mut self[index]
    }

    #[inline(always)]
    fn split_known(&self, at: usize) -> (&[T], &[T]) {
        self.split_at(at)
    }
}
