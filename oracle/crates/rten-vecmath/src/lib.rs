//! The modules of rten-vecmath 0.27.0 that document 01 takes, their text unchanged; `bring.sh` puts it in `text/`.

#[path = "../text/erf.rs"]
pub mod erf;
#[path = "../text/exp.rs"]
pub mod exp;
#[path = "../text/min_max.rs"]
pub mod min_max;
#[path = "../text/normalize.rs"]
pub mod normalize;
#[path = "../text/quantize.rs"]
pub mod quantize;
#[path = "../text/sin_cos.rs"]
pub mod sin_cos;
#[path = "../text/softmax.rs"]
pub mod softmax;
#[path = "../text/sum.rs"]
pub mod sum;
#[path = "../text/tanh.rs"]
pub mod tanh;

pub use erf::{ApproxGelu, Erf, Gelu};
pub use exp::{Elu, Exp, ReducedRangeExp, Sigmoid, Silu, Swish};
pub use min_max::{MaxNum, MinMax, MinNum};
pub use normalize::{Normalize, NormalizeOptions};
pub use quantize::Quantize;
pub use sin_cos::{Cos, Sin};
pub use softmax::Softmax;
pub use sum::{Sum, SumAbs, SumExpSub, SumSquare, SumSquareSub};
pub use tanh::Tanh;
