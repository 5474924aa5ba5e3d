//! Document 01's rules in plain scalar code: branches, words that wrap, whole numbers. It shares no code with the Rust text.
//! The calls take what the C boundary takes; a refused one leaves everything lent as it was.

pub mod answer;
pub mod bits;
pub mod extremes;
pub mod meter;
pub mod normalize;
pub mod quantize;
pub mod softmax;
pub mod split;
pub mod sum;
pub mod table;
pub mod unary;

pub use answer::Answer;
