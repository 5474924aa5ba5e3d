//! What is lent to a call, with guards before and behind it.

/// A number by its pattern, so that a NaN's bits count.
pub trait Word: Copy {
    fn word(self) -> u32;
    const GUARD: Self;
}
impl Word for f32 {
    fn word(self) -> u32 {
        self.to_bits()
    }
    const GUARD: f32 = f32::from_bits(0x7fa5_a5a5);
}
impl Word for u32 {
    fn word(self) -> u32 {
        self
    }
    const GUARD: u32 = 0xa5a5_a5a5;
}
impl Word for u16 {
    fn word(self) -> u32 {
        self as u32
    }
    const GUARD: u16 = 0xa5a5;
}
impl Word for u8 {
    fn word(self) -> u32 {
        self as u32
    }
    const GUARD: u8 = 0xa5;
}

const GUARDS: usize = 16;

#[derive(Clone)]
pub struct Lent<T>(Vec<T>);

impl<T: Word> Lent<T> {
    pub fn new(xs: &[T]) -> Lent<T> {
        let mut all = vec![T::GUARD; GUARDS];
        all.extend_from_slice(xs);
        all.extend([T::GUARD; GUARDS]);
        Lent(all)
    }
    pub fn len(&self) -> usize {
        self.0.len() - 2 * GUARDS
    }
    pub fn slice(&self) -> &[T] {
        &self.0[GUARDS..self.0.len() - GUARDS]
    }
    pub fn slice_mut(&mut self) -> &mut [T] {
        let end = self.0.len() - GUARDS;
        &mut self.0[GUARDS..end]
    }
    /// NULL where nothing is lent, as the header allows.
    pub fn ptr(&self) -> *const T {
        if self.len() == 0 { std::ptr::null() } else { self.slice().as_ptr() }
    }
    pub fn ptr_mut(&mut self) -> *mut T {
        if self.len() == 0 { std::ptr::null_mut() } else { self.slice_mut().as_mut_ptr() }
    }
    pub fn guards_kept(&self) -> bool {
        let (before, rest) = self.0.split_at(GUARDS);
        let behind = &rest[rest.len() - GUARDS..];
        before.iter().chain(behind).all(|x| x.word() == T::GUARD.word())
    }
}
