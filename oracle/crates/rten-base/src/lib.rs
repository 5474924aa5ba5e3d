//! Stand-in for the one thing that the text takes from rten-base.

pub mod hint {
    #[inline(always)]
    pub fn unlikely(b: bool) -> bool {
        b
    }
}
