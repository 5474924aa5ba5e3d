//! The twelve operators: number, alpha (+0 where there is none), x, y. The text's y, but the rule's where a request has another.

use crate::file::File;
use crate::inputs::{Inputs, at_most_zero, below_48000, edge, finite, steps};
use reference::unary::{Op, departs, in_domain};
use std::collections::HashSet;
use text::eval;

/// An operator, given its alpha, with pairs of alpha and x.
type Cases = (fn(f32) -> Op, Vec<(f32, f32)>);

pub fn file() -> File {
    let mut f = File::new("unary");
    let plain = |s: Inputs| -> Vec<(f32, f32)> { s.list.iter().map(|&x| (0.0, x)).collect() };
    let operators: [Cases; 12] = [
        (|_| Op::Exp, plain(exp_inputs())),
        (|_| Op::ReducedRangeExp, plain(reduced_inputs())),
        (|_| Op::Sigmoid, plain(sigmoid_inputs("sigmoid"))),
        (|_| Op::Silu, plain(sigmoid_inputs("silu"))),
        (Op::Swish, swish_cases()),
        (Op::Elu, elu_cases()),
        (|_| Op::Tanh, plain(tanh_inputs())),
        (|_| Op::Erf, plain(erf_inputs())),
        (|_| Op::Gelu, plain(gelu_inputs())),
        (|_| Op::ApproxGelu, plain(approx_gelu_inputs())),
        (|_| Op::Sin, plain(sin_cos_inputs("sin"))),
        (|_| Op::Cos, plain(sin_cos_inputs("cos"))),
    ];
    for (number, (op, cases)) in operators.into_iter().enumerate() {
        for (alpha, x) in cases {
            let op = op(alpha);
            assert!(in_domain(op, x));
            let rule = reference::unary::eval(op, x);
            let y = if departs(op, x).is_some() { rule } else { eval(op, x) };
            f.agree(&format!("{op:?}"), &[x], &[y], &[rule]);
            f.case(&[number as u32, alpha.to_bits(), x.to_bits(), y.to_bits()]);
        }
    }
    f
}

/// Where Exp overflows and underflows, and where its k changes.
fn exp_edges(s: &mut Inputs) {
    let exp = |x: f32| eval(Op::Exp, x);
    s.around(104.0);
    s.around(103.97);
    s.around(edge(80.0, 104.0, |x| exp(x) == f32::INFINITY));
    s.around(edge(80.0, 104.0, |x| exp(-x) == 0.0));
    s.around(edge(80.0, 104.0, |x| exp(-x) < f32::MIN_POSITIVE));
    for k in [1.0, 2.0, 127.0, 128.0] {
        s.around(edge(0.1, 103.0, |x| steps(x) >= k));
    }
}

fn exp_inputs() -> Inputs {
    let mut s = Inputs::new(finite);
    s.specials();
    exp_edges(&mut s);
    s.powers(&[-100, -24, -12, -3, 2, 4, 6, 24]);
    s.random("exp", 106.0);
    s
}

fn reduced_inputs() -> Inputs {
    let mut s = Inputs::new(at_most_zero);
    s.specials();
    s.around(f32::from_bits(0x42af_58a3));
    s.around(104.0);
    s.around(edge(80.0, 87.67, |x| eval(Op::ReducedRangeExp, -x) < f32::MIN_POSITIVE));
    for k in [1.0, 2.0, 3.0, 4.0, 8.0, 16.0, 32.0, 64.0, 100.0, 125.0, 126.0] {
        s.around(edge(0.1, 88.0, |x| steps(x) >= k));
    }
    s.powers(&[-120, -100, -60, -30, -25, -24, -23, -12, -6, -3, -2, 2, 3, 4, 5, 6, 7, 24, 60, 120]);
    s.random("reduced_range_exp", 88.0);
    s
}

fn sigmoid_inputs(name: &str) -> Inputs {
    let mut s = Inputs::new(finite);
    s.specials();
    s.around(104.0);
    s.around(103.97);
    s.around(edge(80.0, 104.0, |x| eval(Op::Sigmoid, -x) == 0.0));
    s.around(edge(80.0, 104.0, |x| eval(Op::Exp, -x) == 0.0));
    s.around(edge(8.0, 40.0, |x| eval(Op::Sigmoid, x) == 1.0));
    for k in [1.0, 2.0] {
        s.around(edge(0.1, 103.0, |x| steps(x) >= k));
    }
    s.powers(&[-100, -25, -24, -12, -3, 2, 3, 4, 6, 24, 100]);
    s.random(name, 106.0);
    s
}

fn elu_inputs() -> Inputs {
    let mut s = Inputs::new(finite);
    s.specials();
    s.around(104.0);
    s.around(103.97);
    s.around(edge(80.0, 104.0, |x| eval(Op::Exp, -x) == 0.0));
    s.around(edge(8.0, 40.0, |x| eval(Op::Exp, -x) - 1.0 == -1.0));
    s.around(edge(1e-10, 1e-3, |x| eval(Op::Exp, -x) < 1.0));
    s.around(edge(0.1, 103.0, |x| steps(x) >= 1.0));
    s.powers(&[-100, -26, -25, -24, -12, -3, 2, 3, 4, 6, 24, 100]);
    s.random("elu", 106.0);
    s
}

fn tanh_inputs() -> Inputs {
    let mut s = Inputs::new(finite);
    s.specials();
    for x in [0.0004, 0.55, 9.02, 52.0] {
        s.around(x);
    }
    s.around(edge(2.0, 9.0, |x| eval(Op::Tanh, x) == 1.0));
    for k in [2.0, 3.0] {
        s.around(edge(0.1, 9.0, |x| steps(x * 2.0) >= k));
    }
    s.powers(&[-100, -24, -13, -12, -11, -6, -3, -2, 2, 3, 4, 24, 100]);
    s.random("tanh", 10.0);
    s
}

fn erf_inputs() -> Inputs {
    let mut s = Inputs::new(finite);
    s.specials();
    s.around(edge(1e18, 1e20, |x| x * x == f32::INFINITY));
    s.around(edge(1.0, 20.0, |x| -(x * x) < f32::from_bits(0xc2af_58a3)));
    s.around(edge(2.0, 9.0, |x| eval(Op::Erf, x) == 1.0));
    s.around(edge(1e-30, 1e-10, |x| x * x != 0.0));
    for k in [1.0, 2.0] {
        s.around(edge(0.1, 9.0, |x| steps(x * x) >= k));
    }
    s.powers(&[-100, -76, -75, -24, -12, -6, -3, -2, 2, 3, 4, 24, 63, 64, 65, 100]);
    s.random("erf", 10.0);
    s
}

fn gelu_inputs() -> Inputs {
    let mut s = Inputs::new(finite);
    s.specials();
    let inner = |x: f32| x * (1.0 / std::f32::consts::SQRT_2);
    s.around(edge(1e18, 1e20, |x| inner(x) * inner(x) == f32::INFINITY));
    s.around(edge(1.0, 20.0, |x| -(inner(x) * inner(x)) < f32::from_bits(0xc2af_58a3)));
    s.around(edge(2.0, 9.0, |x| eval(Op::Erf, inner(x)) == 1.0));
    s.around(edge(1e-30, 1e-10, |x| inner(x) * inner(x) != 0.0));
    s.around(f32::from_bits(0x0100_0000));
    s.around(edge(0.1, 9.0, |x| steps(inner(x) * inner(x)) >= 1.0));
    s.powers(&[-100, -75, -24, -12, -6, -3, -2, 2, 3, 4, 24, 64, 65, 100]);
    s.random("gelu", 12.0);
    s
}

fn approx_gelu_inputs() -> Inputs {
    let mut s = Inputs::new(finite);
    s.specials();
    let cube = |x: f32| (x * x) * x;
    let inner = |x: f32| (cube(x) * 0.044715 + x) * 0.7978846;
    s.around(edge(1e18, 1e20, |x| x * x == f32::INFINITY));
    s.around(edge(1e12, 1e13, |x| cube(x) == f32::INFINITY));
    s.around(edge(1e-4, 1e-2, |x| inner(x) > 0.0004));
    s.around(edge(0.1, 2.0, |x| inner(x) > 0.55));
    s.around(edge(1.0, 20.0, |x| inner(x) >= 9.02));
    s.around(edge(1.0, 20.0, |x| eval(Op::Tanh, inner(x)) == 1.0));
    s.around(f32::from_bits(0x0100_0000));
    s.powers(&[-100, -50, -24, -12, -6, -3, -2, 2, 3, 24, 43, 64]);
    s.random("approx_gelu", 8.0);
    s
}

fn sin_cos_inputs(name: &str) -> Inputs {
    let mut s = Inputs::new(below_48000);
    s.specials();
    s.around(f32::from_bits(0x473b_7fff));
    for n in [1, 2, 3, 4, 5, 6, 100, 30557] {
        s.around((n as f64 * std::f64::consts::FRAC_PI_2) as f32);
    }
    // the rounded product is a whole number and a half: the first and the last pattern that gives it, and the ones beside them
    let turns = |x: f32| x * 0.15915494f32;
    for n in [0, 1, 2, 101, 7638] {
        let half = n as f32 + 0.5;
        let from = half * 6.2831855;
        let first = edge(from * 0.999, from * 1.001, |x| turns(x) >= half);
        let after = edge(from * 0.999, from * 1.001, |x| turns(x) > half);
        if turns(first) == half {
            s.both(first);
            s.both(f32::from_bits(after.to_bits() - 1));
        }
        s.both(f32::from_bits(first.to_bits() - 1));
        s.both(after);
    }
    s.powers(&[-100, -24, -12, -3, 3, 10, 15]);
    s.random(name, 47999.996);
    s
}

const ALPHAS: [f32; 8] = [1.702, 1.0, -1.0, 0.5, 0.0, -0.0, f32::MAX, f32::from_bits(1)];

/// Every input with one alpha, each alpha with both signs in turn; `first` are pairs of their own.
fn with_alphas(s: Inputs, first: &[(f32, f32)]) -> Vec<(f32, f32)> {
    let mut seen = HashSet::new();
    let spread = s.list.iter().enumerate().map(|(i, &x)| (ALPHAS[(i + i / 8) % 8], x));
    let all = first.iter().copied().chain(spread);
    all.filter(|(a, x)| seen.insert((a.to_bits(), x.to_bits()))).collect()
}

fn swish_cases() -> Vec<(f32, f32)> {
    let mut first = vec![];
    let exp = |x: f32| eval(Op::Exp, x);
    for x in [edge(1.0, 100.0, |x| x * 1.702 >= 104.0), edge(1.0, 100.0, |x| exp(x * 1.702) == f32::INFINITY)] {
        for b in [x.to_bits() - 1, x.to_bits(), x.to_bits() + 1] {
            first.push((1.702, f32::from_bits(b)));
            first.push((1.702, -f32::from_bits(b)));
        }
    }
    with_alphas(sigmoid_inputs("swish"), &first)
}

fn elu_cases() -> Vec<(f32, f32)> {
    // what alpha does to the two results that are all of alpha: 0 and -1
    let first: Vec<_> = ALPHAS.iter().flat_map(|&a| [(a, -1e-10), (a, -104.0)]).collect();
    with_alphas(elu_inputs(), &first)
}
