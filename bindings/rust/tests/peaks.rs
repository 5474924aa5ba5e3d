//! Extremes of chunks, gathered in several groupings and in another order.

mod random;

use masoritun::{max_num, min_max, min_num};
use random::Random;

type Peaks = (f32, f32);

fn bits((least, largest): Peaks) -> (u32, u32) {
    (least.to_bits(), largest.to_bits())
}

fn at_once(answers: &[Peaks]) -> Peaks {
    let (least, largest): (Vec<f32>, Vec<f32>) = answers.iter().copied().unzip();
    (min_num(&least).unwrap(), max_num(&largest).unwrap())
}

fn one_by_one(answers: &[Peaks]) -> Peaks {
    answers.iter().fold(min_max(&[]).unwrap(), |held, &next| at_once(&[held, next]))
}

fn by_halves(answers: &[Peaks]) -> Peaks {
    match answers {
        [] | [_] => at_once(answers),
        _ => {
            let (first, second) = answers.split_at(answers.len() / 2);
            at_once(&[by_halves(first), by_halves(second)])
        }
    }
}

/// Up to 9 chunks, cut anywhere: empty ones too.
fn cut<'a>(random: &mut Random, mut rest: &'a [f32]) -> Vec<&'a [f32]> {
    let mut chunks = Vec::new();
    for _ in 0..random.below(9) {
        let (chunk, after) = rest.split_at(random.below(rest.len() + 1));
        chunks.push(chunk);
        rest = after;
    }
    chunks.push(rest);
    chunks
}

#[test]
fn chunks_give_the_extremes_of_the_whole() {
    let mut random = Random(13);
    let some = [0.0, -0.0, 1.0, -1.0, f32::INFINITY, f32::NEG_INFINITY, f32::from_bits(1), -f32::from_bits(1)];
    for round in 0..2000 {
        // of the smallest lists every extreme is often a zero
        let kinds = if round % 2 == 0 { 2 } else { some.len() };
        let src: Vec<f32> = (0..random.below(40)).map(|_| some[random.below(kinds)]).collect();
        let whole = min_max(&src).unwrap();
        let mut answers: Vec<Peaks> = cut(&mut random, &src).into_iter().map(|chunk| min_max(chunk).unwrap()).collect();
        for gathered in [at_once, one_by_one, by_halves] {
            assert_eq!(bits(gathered(&answers)), bits(whole), "{src:?}");
        }
        answers.reverse();
        assert_eq!(at_once(&answers), whole, "{src:?}");
    }
}

#[test]
fn chunks_of_more_than_a_call_takes() {
    let mut random = Random(14);
    let src: Vec<f32> = (0..50_000).map(|_| random.unit()).collect();
    assert!(min_max(&src).is_err());
    let answers: Vec<Peaks> = src.chunks(333).map(|chunk| min_max(chunk).unwrap()).collect();
    let least = src.iter().copied().fold(f32::INFINITY, f32::min);
    let largest = src.iter().copied().fold(f32::NEG_INFINITY, f32::max);
    for gathered in [at_once, one_by_one, by_halves] {
        assert_eq!(gathered(&answers), (least, largest));
    }
}

/// The smallest example of an order that changes a zero's sign.
#[test]
fn a_zero_may_change_sign() {
    let [plus, minus] = [[0.0], [-0.0]].map(|src| min_max(&src).unwrap());
    assert_eq!(bits(at_once(&[plus, minus])), bits((0.0, 0.0)));
    assert_eq!(bits(at_once(&[minus, plus])), bits((-0.0, -0.0)));
}
