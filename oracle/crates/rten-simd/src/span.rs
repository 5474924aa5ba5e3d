//! A source and a destination, or one slice that is both.

use std::mem::MaybeUninit;

pub enum SrcDest<'s, 'd, T> {
    Two(&'s [T], &'d mut [MaybeUninit<T>]),
    InPlace(&'d mut [T]),
}

#[allow(clippy::len_without_is_empty)]
impl<T> SrcDest<'_, '_, T> {
    #[inline(always)]
    pub fn src(&self) -> &[T] {
        match self {
            SrcDest::Two(src, _) => src,
            SrcDest::InPlace(data) => data,
        }
    }
    #[inline(always)]
    pub fn len(&self) -> usize {
        self.src().len()
    }
}

impl<'s, 'd, T> From<(&'s [T], &'d mut [MaybeUninit<T>])> for SrcDest<'s, 'd, T> {
    #[inline(always)]
    #[track_caller]
    fn from((src, dst): (&'s [T], &'d mut [MaybeUninit<T>])) -> Self {
        assert_eq!(src.len(), dst.len());
        SrcDest::Two(src, dst)
    }
}

impl<'d, T> From<&'d mut [T]> for SrcDest<'_, 'd, T> {
    #[inline(always)]
    fn from(data: &'d mut [T]) -> Self {
        SrcDest::InPlace(data)
    }
}
