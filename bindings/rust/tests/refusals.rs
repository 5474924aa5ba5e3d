//! What the kernels, the split, the meter and the moves of a table refuse: number, place, and that nothing lent has changed.

use masoritun::*;

const NAN: f32 = f32::NAN;
const INF: f32 = f32::INFINITY;
const MASKED: f32 = f32::NEG_INFINITY;

type Operator = fn(&[f32], &mut [f32]) -> Result<(), Refusal>;
type Fold = fn(&[f32]) -> Result<f32, Refusal>;

const OPERATORS: [Operator; 12] = [
    exp,
    reduced_range_exp,
    sigmoid,
    silu,
    |src, dst| swish(1.0, src, dst),
    |src, dst| elu(1.0, src, dst),
    tanh,
    erf,
    gelu,
    approx_gelu,
    sin,
    cos,
];
const SUMS: [Fold; 5] = [sum, sum_square, sum_abs, |src| sum_square_sub(1.0, src), |src| sum_exp_sub(1.0, src)];
const EXTREMES: [Fold; 3] = [max_num, min_num, |src| min_max(src).map(|(least, _)| least)];

/// The call is refused with this number at this place, and leaves what was lent, bit for bit.
fn refused<T: Copy + Into<f64>>(number: u8, place: usize, lent: &[T], call: impl FnOnce(&mut [T]) -> Result<(), Refusal>) {
    let bits = |lent: &[T]| lent.iter().map(|&x| x.into().to_bits()).collect::<Vec<u64>>();
    let mut left = lent.to_vec();
    let refusal = call(&mut left).expect_err("a refusal");
    assert_eq!((refusal.number(), refusal.place()), (number, place), "{refusal}");
    assert_eq!(bits(&left), bits(lent));
}

/// `n` elements that every kernel takes, with another at one place.
fn with(n: usize, at: usize, x: f32) -> Vec<f32> {
    let mut list = vec![-1.0; n];
    list[at] = x;
    list
}

#[test]
fn operators() {
    for operator in OPERATORS {
        refused(1, 0, &[7.0; 3], |dst| operator(&[-1.0; 2], dst));
        refused(1, 0, &[7.0; 3], |dst| operator(&[NAN; 16_385], dst));
        refused(2, 0, &[7.0; 16_385], |dst| operator(&with(16_385, 3, NAN), dst));
        assert_eq!(operator(&[-1.0; MAX_ELEMENTS], &mut [7.0; MAX_ELEMENTS]), Ok(()));
        for bad in [NAN, INF, MASKED] {
            refused(4, 3, &[7.0; 6], |dst| operator(&[-1.0, 0.0, -2.0, bad, -1.0, NAN], dst));
        }
    }
}

#[test]
fn narrower_domains() {
    refused(4, 1, &[7.0; 2], |dst| reduced_range_exp(&[-0.0, 1e-40], dst));
    for operator in [sin, cos] {
        refused(4, 0, &[7.0], |dst| operator(&[48_000.0], dst));
        refused(4, 1, &[7.0; 2], |dst| operator(&[47_999.996, -48_000.0], dst));
        assert_eq!(operator(&[47_999.996, -47_999.996], &mut [7.0; 2]), Ok(()));
    }
}

/// Alpha, offset and inv_scale: 3 before 4, and also where there are no elements.
#[test]
fn settings_not_finite() {
    for bad in [NAN, INF, MASKED] {
        for src in [&[NAN][..], &[]] {
            let dst = &vec![7.0f32; src.len()];
            refused(3, 0, dst, |dst| swish(bad, src, dst));
            refused(3, 0, dst, |dst| elu(bad, src, dst));
            refused(3, 0, &vec![7u8; src.len()], |dst| quantize(bad, 0, src, dst));
            assert_eq!(sum_square_sub(bad, src), Err(Refusal::NotFinite));
            assert_eq!(sum_exp_sub(bad, src), Err(Refusal::NotFinite));
            for settings in [
                Normalize { pre_scale_bias: bad, ..Normalize::default() },
                Normalize { scale: bad, ..Normalize::default() },
                Normalize { bias: bad, ..Normalize::default() },
            ] {
                refused(3, 0, dst, |dst| normalize(&settings, src, dst));
                refused(3, 0, src, |data| normalize_in_place(&settings, data));
            }
        }
    }
}

#[test]
fn sums_and_extremes() {
    for fold in SUMS.into_iter().chain(EXTREMES) {
        assert_eq!(fold(&with(16_385, 0, NAN)), Err(Refusal::TooMany));
        assert!(fold(&[-1.0; MAX_ELEMENTS]).is_ok());
        assert_eq!(fold(&with(9, 5, NAN)), Err(Refusal::Domain(5)));
    }
    for bad in [INF, MASKED] {
        assert!(SUMS.iter().all(|sum| sum(&with(9, 5, bad)) == Err(Refusal::Domain(5))));
        assert!(EXTREMES.iter().all(|extreme| extreme(&with(9, 5, bad)).is_ok()));
    }
}

#[test]
fn softmax_both_ways() {
    refused(1, 0, &[7.0], |dst| softmax(false, &[NAN; 2], dst));
    let cases =
        [(2, 0, vec![MASKED; 16_385]), (4, 2, vec![0.0, MASKED, INF, NAN]), (4, 1, vec![MASKED, NAN]), (5, 0, vec![MASKED; 2])];
    for (number, place, src) in cases {
        refused(number, place, &vec![7.0; src.len()], |dst| softmax(false, &src, dst));
        refused(number, place, &src, |data| softmax_in_place(false, data));
        if number != 5 {
            refused(number, place, &src, |data| softmax_in_place(true, data));
        }
    }
}

#[test]
fn normalize_both_ways() {
    let plain = Normalize::default();
    refused(1, 0, &[7.0], |dst| normalize(&plain, &[NAN; 2], dst));
    let (short, bad) = ([1.0; 3], [1.0, 1.0, NAN, 1.0]);
    let most = Normalize { scale: f32::MAX, ..plain };
    let cases = [
        (1, 0, Normalize { element_scale: Some(&short), ..plain }, vec![NAN; 4]),
        (1, 0, Normalize { element_bias: Some(&short), ..plain }, vec![NAN; 4]),
        (2, 0, Normalize { scale: NAN, ..plain }, vec![NAN; 16_385]),
        (4, 3, plain, with(4, 3, INF)),
        (4, 2, Normalize { element_scale: Some(&bad), ..plain }, with(4, 3, NAN)),
        (4, 2, Normalize { element_bias: Some(&bad), ..plain }, with(4, 3, NAN)),
        (4, 1, Normalize { element_bias: Some(&bad), ..plain }, with(4, 1, NAN)),
        // The scales of the last two overflow, and infinity times (0 - 0) is NaN.
        (6, 2, Normalize { element_scale: Some(&[1.0, 1.0, 2.0, 2.0]), ..most }, vec![0.0; 4]),
    ];
    for (number, place, settings, src) in cases {
        refused(number, place, &vec![7.0; src.len()], |dst| normalize(&settings, &src, dst));
        refused(number, place, &src, |data| normalize_in_place(&settings, data));
    }
}

#[test]
fn codes() {
    refused(1, 0, &[7u8; 3], |dst| quantize(NAN, 0, &[NAN; 2], dst));
    refused(2, 0, &[7u8; 16_385], |dst| quantize(NAN, 0, &[NAN; 16_385], dst));
    refused(4, 1, &[7u8; 3], |dst| quantize(1.0, 0, &[1.0, MASKED, NAN], dst));
}

/// The split's order is 7, 1, 4, 5.
#[test]
fn splits() {
    refused(7, 0, &[7u16; 2], |gains| split(&[], gains));
    refused(7, 0, &[7u16; 2], |gains| split(&[NAN; 65], gains));
    refused(7, 0, &[7u16; 65], |gains| split(&[0.0; 65], gains));
    refused(1, 0, &[7u16; 2], |gains| split(&[NAN; 3], gains));
    refused(4, 1, &[7u16; 3], |gains| split(&[MASKED, NAN, INF], gains));
    refused(5, 0, &[7u16; 3], |gains| split(&[MASKED; 3], gains));
    for n in [17, 63, 64] {
        refused(1, 0, &vec![7u16; n + 1], |gains| split(&vec![NAN; n], gains));
        refused(4, n - 1, &vec![7u16; n], |gains| split(&with(n, n - 1, INF), gains));
        refused(5, 0, &vec![7u16; n], |gains| split(&vec![MASKED; n], gains));
    }
}

/// Moving: what reading refuses, then 15, then 9.
#[test]
fn moves() {
    let (mut one, mut two) = ([0; 512], [0; 2048]);
    assert_eq!(table::write(1, 2, &[32768; 2], &mut one), Ok(()));
    assert_eq!(table::write(3, 250, &[0, 32768, 0].repeat(250), &mut two), Ok(()));
    let mut damaged = one;
    damaged[100] = 1;
    for to_form in [table::to_form_1, table::to_form_2] {
        refused(9, 0, &[7u8; 512], |result| to_form(&[], result));
        refused(9, 0, &[7u8; 512], |result| to_form(&one[..511], result));
        refused(10, 0, &[7u8; 511], |result| to_form(&damaged, result));
        refused(11, 1, &[7u8; 3], |result| to_form(&[&two[..512], &one, &two[1024..]].concat(), result));
    }
    for n in [0, 511, 512, 513, 1024] {
        refused(15, 0, &vec![7u8; n], |result| table::to_form_2(&one, result));
    }
    for n in [0, 511, 513, 1024] {
        refused(9, 0, &vec![7u8; n], |result| table::to_form_1(&one, result));
    }
    // In form 1 it takes four blocks, in form 2 two.
    for n in [0, 512, 1023, 1025, 1536, 2048] {
        refused(9, 0, &vec![7u8; n], |result| table::to_form_2(&two, result));
    }
    for n in [0, 1024, 1536, 2047, 2049, 2560] {
        refused(9, 0, &vec![7u8; n], |result| table::to_form_1(&two, result));
    }
    assert_eq!(Refusal::OneBand.to_string(), "refused with 15: a one-band table has no form 2");
}

#[test]
fn meters() {
    let start = Meter::new();
    let cases = [
        (2, 0, Meter { sum_squares: NAN, ..start }, vec![NAN; 16_385]),
        (2, 0, Meter { count: u32::MAX, ..start }, vec![NAN]),
        (3, 0, Meter { sum_squares: NAN, ..start }, vec![]),
        (3, 0, Meter { least: NAN, ..start }, vec![NAN]),
        (3, 0, Meter { largest: NAN, ..start }, vec![1.0]),
        (3, 0, Meter { sum_squares: -1e-40, ..start }, vec![1.0]),
        (2, 0, Meter { overs: 1, ..start }, vec![NAN; 16_385]),
        (3, 0, Meter { overs: 1, ..start }, vec![]),
        (3, 0, Meter { count: 7, overs: 8, ..start }, vec![NAN]),
        (4, 2, start, vec![1.0, 2.0, INF, NAN]),
    ];
    for (number, place, held, samples) in cases {
        let bits = |m: Meter| (m.count, m.overs, [m.sum_squares, m.least, m.largest].map(f32::to_bits));
        let mut meter = held;
        let refusal = meter.feed(&samples).expect_err("a refusal");
        assert_eq!((refusal.number(), refusal.place()), (number, place), "{refusal}");
        assert_eq!(bits(meter), bits(held));
    }
    let mut full = Meter { count: u32::MAX - 1, sum_squares: -0.0, ..start };
    assert_eq!(full.feed(&[1.0]), Ok(()));
    assert_eq!(full.count, u32::MAX);
}
