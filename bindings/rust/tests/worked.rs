//! The sums by hand of documents 01 and 02, and what 01 says of empty input.

use masoritun::*;

const MASKED: f32 = f32::NEG_INFINITY;

#[test]
fn splits() {
    let cases: [(&[f32], &[u16]); 6] = [
        (&[0.0], &[32768]),
        (&[0.0, 0.0], &[16384, 16384]),
        (&[-3.5; 3], &[10923, 10923, 10922]),
        (&[1e30; 5], &[6554, 6554, 6554, 6553, 6553]),
        (&[0.0, -100.0], &[32768, 0]),
        (&[0.0, MASKED, 0.0], &[16384, 0, 16384]),
    ];
    for (levels, want) in cases {
        let mut gains = vec![7; levels.len()];
        assert_eq!(split(levels, &mut gains), Ok(()), "{levels:?}");
        assert_eq!(gains, want, "{levels:?}");
    }
}

#[test]
fn operators_at_their_edges() {
    type Operator = fn(&[f32], &mut [f32]) -> Result<(), Refusal>;
    let cases: [(Operator, f32, f32); 5] =
        [(reduced_range_exp, 0.0, 1.0), (exp, 104.0, f32::INFINITY), (exp, -104.0, 0.0), (tanh, 0.0, 0.0), (tanh, -0.0, -0.0)];
    for (operator, x, want) in cases {
        let mut dst = [7.0];
        assert_eq!(operator(&[x], &mut dst), Ok(()));
        assert_eq!(dst[0].to_bits(), want.to_bits(), "{x}");
    }
}

#[test]
fn codes() {
    let mut codes = [7; 5];
    assert_eq!(quantize(1.0, 0, &[0.5, 1.5, 2.5, -1.0, 300.0], &mut codes), Ok(()));
    assert_eq!(codes, [0, 2, 2, 0, 255]);
    assert_eq!(quantize(1.0, 128, &[-0.5], &mut codes[..1]), Ok(()));
    assert_eq!(codes[0], 128);
}

#[test]
fn the_smallest_table() {
    let mut want = [0; 512];
    want[..10].copy_from_slice(&[0x01, 0x00, 0x00, 0x00, 0x01, 0x00, 0x01, 0x00, 0x00, 0x80]);
    want[508..].copy_from_slice(&[0x83, 0x00, 0x0d, 0x05]);
    let mut bytes = [7; 512];
    assert_eq!(table::write(1, 1, &[32768], &mut bytes), Ok(()));
    assert_eq!(bytes, want);
    let mut gains = [7];
    assert_eq!(table::read(&want, &mut gains), Ok((1, 1)));
    assert_eq!(gains, [32768]);
}

#[test]
fn empty_input() {
    let none: &mut [f32] = &mut [];
    for operator in [exp, reduced_range_exp, sigmoid, silu, tanh, erf, gelu, approx_gelu, sin, cos] {
        assert_eq!(operator(&[], none), Ok(()));
    }
    assert_eq!(swish(1.0, &[], none), Ok(()));
    assert_eq!(elu(1.0, &[], none), Ok(()));
    for flush in [false, true] {
        assert_eq!(softmax(flush, &[], none), Ok(()));
        assert_eq!(softmax_in_place(flush, none), Ok(()));
    }
    assert_eq!(normalize(&Normalize::default(), &[], none), Ok(()));
    assert_eq!(normalize_in_place(&Normalize::default(), none), Ok(()));
    assert_eq!(quantize(1.0, 0, &[], &mut []), Ok(()));
    for sum in [sum(&[]), sum_square(&[]), sum_abs(&[]), sum_square_sub(1.0, &[]), sum_exp_sub(1.0, &[])] {
        assert_eq!(sum.map(f32::to_bits), Ok(0));
    }
    assert_eq!(max_num(&[]), Ok(f32::NEG_INFINITY));
    assert_eq!(min_num(&[]), Ok(f32::INFINITY));
    assert_eq!(min_max(&[]), Ok((f32::INFINITY, f32::NEG_INFINITY)));
}

/// Of equal zeros the one met first stays.
#[test]
fn equal_zeros() {
    for (src, first) in [([0.0, -0.0], 0.0f32), ([-0.0, 0.0], -0.0)] {
        let (least, largest) = min_max(&src).unwrap();
        for zero in [least, largest, max_num(&src).unwrap(), min_num(&src).unwrap()] {
            assert_eq!(zero.to_bits(), first.to_bits());
        }
    }
}

/// One version for the crate and the library; `examples/run` holds the header to both.
#[test]
fn version() {
    let mut number = 0;
    for part in env!("CARGO_PKG_VERSION").split('.') {
        number = 100 * number + part.parse::<u32>().unwrap();
    }
    assert_eq!(masoritun::version(), number);
}
