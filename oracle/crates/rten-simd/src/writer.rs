//! A slice that is written from its start.

use crate::ops::BitOps;
use crate::{Simd, assume_init};
use std::mem::MaybeUninit;

pub struct SliceWriter<'a, T> {
    buf: &'a mut [MaybeUninit<T>],
    at: usize,
}

impl<'a, T: Copy> SliceWriter<'a, T> {
    #[inline(always)]
    pub fn new(buf: &'a mut [MaybeUninit<T>]) -> Self {
        SliceWriter { buf, at: 0 }
    }
    #[inline(always)]
    pub fn write_vec<O: BitOps<T>>(&mut self, _ops: O, v: O::Simd) {
        for x in v.to_array() {
            self.write_scalar(x);
        }
    }
    #[inline(always)]
    pub fn write_scalar(&mut self, x: T) {
        self.buf[self.at].write(x);
        self.at += 1;
    }
    #[inline(always)]
    pub fn into_mut_slice(self) -> &'a mut [T] {
        assert_eq!(self.at, self.buf.len());
        // SAFETY: every element was written.
        unsafe { assume_init(self.buf) }
    }
}
