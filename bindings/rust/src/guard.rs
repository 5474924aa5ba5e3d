//! The float control word (MXCSR; on aarch64 FPCR) around a call of the library.
//!
//! The library's meaning is IEEE 754 rounded to nearest. Audio hosts flush subnormals on their threads, which would change bits.

use crate::refusal::{Refusal, answer};
use word::{CONTROL, PLAIN, control_word, set_control_word};

#[cfg(target_arch = "x86_64")]
mod word {
    use std::arch::asm;

    pub(super) type Word = u32;
    /// Round to nearest, no flushing (FTZ, DAZ), every exception masked, no flag raised.
    pub(super) const PLAIN: Word = 0x1f80;
    /// All but the six flags, which operations raise and never look at.
    pub(super) const CONTROL: Word = !0x003f;

    pub(super) fn control_word() -> Word {
        let mut word = 0;
        // SAFETY: the instruction writes the four bytes of `word`.
        unsafe { asm!("stmxcsr [{}]", in(reg) &raw mut word, options(nostack, preserves_flags)) };
        word
    }

    /// Not marked as free of effects on memory: the call must stay between two of these.
    pub(super) fn set_control_word(word: Word) {
        // SAFETY: the instruction reads the four bytes of `word`: PLAIN or a word that was held, so no reserved bit is set.
        unsafe { asm!("ldmxcsr [{}]", in(reg) &raw const word, options(nostack)) };
    }
}

/// The flags are in a register of their own (FPSR), which operations raise and never look at.
#[cfg(target_arch = "aarch64")]
mod word {
    use std::arch::asm;

    pub(super) type Word = u64;
    /// Round to nearest, no flushing (FZ), no trap, NaNs as they come.
    pub(super) const PLAIN: Word = 0;
    /// DN, FZ, rounding mode, FZ16, the six traps, and FEAT_AFP's NEP, AH and FIZ.
    pub(super) const CONTROL: Word = 0x03c8_9f07;

    pub(super) fn control_word() -> Word {
        let word;
        // SAFETY: every thread may read this register.
        unsafe { asm!("mrs {}, fpcr", out(reg) word, options(nostack, preserves_flags)) };
        word
    }

    /// Not marked as free of effects on memory: the call must stay between two of these.
    pub(super) fn set_control_word(word: Word) {
        // SAFETY: a word that was held, or that without its control bits, so no reserved bit is set.
        unsafe { asm!("msr fpcr, {}", in(reg) word, options(nostack)) };
    }
}

/// For the compiler alone: the crate's own error is then the only one.
#[cfg(not(any(target_arch = "x86_64", target_arch = "aarch64")))]
mod word {
    pub(super) type Word = u32;
    pub(super) const PLAIN: Word = 0;
    pub(super) const CONTROL: Word = 0;

    pub(super) fn control_word() -> Word {
        PLAIN
    }

    pub(super) fn set_control_word(_: Word) {}
}

/// Makes one call of the library under the plain control word, puts the word back and tells the answer.
///
/// The C functions neither unwind nor panic, so the word is put back on every path.
pub(crate) fn guarded(call: impl FnOnce() -> u64) -> Result<(), Refusal> {
    let held = control_word();
    if held & CONTROL == PLAIN {
        return answer(call());
    }
    set_control_word(held & !CONTROL | PLAIN);
    let word = call();
    set_control_word(held);
    answer(word)
}

#[cfg(test)]
mod tests {
    use super::word::Word;
    use super::*;
    use crate::ffi;

    #[cfg(target_arch = "x86_64")]
    mod host {
        use super::{PLAIN, Word};

        pub(super) const FLUSHES: Word = PLAIN | 0x8040;
        pub(super) const DOWN: Word = PLAIN | 0x2000;
        pub(super) const UP: Word = PLAIN | 0x4000;
        pub(super) const TO_ZERO: Word = PLAIN | 0x6000;
        /// No exception masked.
        pub(super) const TRAPS: Word = 0;
    }

    #[cfg(not(target_arch = "x86_64"))]
    mod host {
        use super::Word;

        pub(super) const FLUSHES: Word = 1 << 24;
        pub(super) const DOWN: Word = 2 << 22;
        pub(super) const UP: Word = 1 << 22;
        pub(super) const TO_ZERO: Word = 3 << 22;
        /// A processor without traps keeps none of these bits.
        pub(super) const TRAPS: Word = 0x9f00;
    }
    use host::{DOWN, FLUSHES, TO_ZERO, TRAPS, UP};

    /// Makes a call under a host's word; gives what it answers, and whether it leaves the word that it met.
    fn under<T>(host: Word, call: impl FnOnce() -> T) -> (T, bool) {
        let held = control_word();
        set_control_word(host);
        let met = control_word() & CONTROL;
        let told = call();
        let left = control_word() & CONTROL;
        set_control_word(held);
        (told, left == met)
    }

    /// Patterns of the weights of [0, -87.5], the second subnormal.
    fn weights() -> [u32; 2] {
        let mut dst = [0.0; 2];
        crate::softmax(false, &[0.0, -87.5], &mut dst).unwrap();
        dst.map(f32::to_bits)
    }

    /// Each step lies nearer to 1 than half a unit, so the sum to nearest is 1. Up, down and to zero it is not.
    const NEAR_ONE: [f32; 3] = [1.0, 1e-9, -1e-9];

    #[test]
    fn a_host_that_flushes_keeps_its_word_and_gets_the_same_weights() {
        let plain = weights();
        let second = f32::from_bits(plain[1]) as f64;
        assert!((second / (-87.5f64).exp() - 1.0).abs() < 1e-6, "{second}");
        let (flushed, left) = under(FLUSHES, weights);
        assert_eq!(flushed, plain);
        assert!(left);
    }

    #[test]
    fn a_host_that_rounds_otherwise_keeps_its_word_and_gets_the_nearest() {
        for host in [DOWN, UP, TO_ZERO] {
            let (sum, left) = under(host, || crate::sum(&NEAR_ONE));
            assert_eq!(sum, Ok(1.0));
            assert!(left);
        }
    }

    /// Where an exception is not masked an inexact sum would stop the program.
    #[test]
    fn a_host_that_traps_keeps_its_word_and_is_not_trapped() {
        assert_eq!(under(TRAPS, || crate::sum(&NEAR_ONE)), (Ok(1.0), true));
    }

    /// The word is put back where a call is refused, too.
    #[test]
    fn a_refused_call_puts_the_word_back() {
        let (refused, left) = under(FLUSHES, || crate::sum(&[f32::NAN]));
        assert_eq!(refused, Err(Refusal::Domain(0)));
        assert!(left);
    }

    /// What the tests above would see with no guard: the host's word does change the library's bits.
    #[test]
    fn without_the_guard_the_word_changes_bits() {
        let src = [0.0, -87.5];
        let mut dst = [7.0; 2];
        // SAFETY: two slices of their own.
        under(FLUSHES, || unsafe { ffi::mst_softmax(false, src.as_ptr(), 2, dst.as_mut_ptr(), 2) });
        assert_eq!(dst, [1.0, 0.0]);
        for host in [DOWN, UP, TO_ZERO] {
            let mut sum = 0.0;
            // SAFETY: a slice and a number of their own.
            under(host, || unsafe { ffi::mst_sum(NEAR_ONE.as_ptr(), 3, &mut sum) });
            assert_ne!(sum, 1.0);
        }
    }
}
