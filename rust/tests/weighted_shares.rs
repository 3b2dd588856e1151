//! Shares by weights against a computation in `i128`, at small numbers and at the ends of the types.

use cellarcove::applied::shares::{
    shares, shares_by_largest_remainder, signed_shares, signed_shares_by_largest_remainder, SharesError,
};
use std::cmp::Reverse;

/// The shares of an amount: from the exact share of the first weights together to that of one weight more, each rounded up.
fn expected(amount: u64, weights: &[u64]) -> Vec<u64> {
    let total: i128 = weights.iter().map(|weight| i128::from(*weight)).sum();
    let due = |count: usize| {
        let first: i128 = weights[..count]
            .iter()
            .map(|weight| i128::from(*weight))
            .sum();
        -(-i128::from(amount) * first).div_euclid(total)
    };
    let share = |place| u64::try_from(due(place + 1) - due(place)).expect("a share fits");
    (0..weights.len()).map(share).collect()
}

/// What the call writes into one share for each weight. With an error it writes nothing.
fn written<T: Copy + From<u8> + PartialEq>(
    weights: &[u64],
    call: impl Fn(&mut [T]) -> Result<(), SharesError>,
) -> Result<Vec<T>, SharesError> {
    let untouched = T::from(7);
    let mut parts = vec![untouched; weights.len()];
    let result = call(&mut parts);
    assert!(
        result.is_ok() || parts.iter().all(|part| *part == untouched),
        "{weights:?}"
    );
    result.map(|()| parts)
}

/// The shares that the call writes, or `None` if the weights are all 0.
fn found(amount: u64, weights: &[u64]) -> Option<Vec<u64>> {
    some(written(weights, |parts| shares(amount, weights, parts)))
}

/// The value, or `None` if the weights are all 0.
fn some<T>(result: Result<T, SharesError>) -> Option<T> {
    assert!(!matches!(result, Err(SharesError::DifferentLengths)));
    result.ok()
}

/// Each list of weights below a bound, of a length.
fn lists(length: u32, bound: u64) -> impl Iterator<Item = Vec<u64>> {
    (0..bound.pow(length)).map(move |code| {
        (0..length)
            .map(|place| code / bound.pow(place) % bound)
            .collect()
    })
}

#[test]
fn small_weights() {
    for weights in (0..=4).flat_map(|length| lists(length, 5)) {
        for amount in 0..30 {
            let some = weights.iter().any(|weight| *weight > 0);
            let expected = some.then(|| expected(amount, &weights));
            assert_eq!(found(amount, &weights), expected, "{amount} {weights:?}");
        }
    }
}

#[test]
fn known_shares() {
    assert_eq!(found(100, &[1, 1, 1]), Some(vec![34, 33, 33]));
    assert_eq!(found(100, &[1, 2]), Some(vec![34, 66]));
    assert_eq!(found(10, &[5, 0, 3, 2]), Some(vec![5, 0, 3, 2]));
    assert_eq!(found(1, &[0, 1000, 1]), Some(vec![0, 1, 0]));
    assert_eq!(found(100, &[]), None);
    assert_eq!(found(100, &[0, 0]), None);
}

/// Which error each call returns. If the lengths differ and the weights are all 0, it is that of the lengths.
#[test]
fn errors() {
    type Case = (&'static [u64], usize, Result<(), SharesError>);
    const CASES: [Case; 8] = [
        (&[1, 1], 3, Err(SharesError::DifferentLengths)),
        (&[1, 1], 1, Err(SharesError::DifferentLengths)),
        (&[], 1, Err(SharesError::DifferentLengths)),
        (&[0, 0], 0, Err(SharesError::DifferentLengths)),
        (&[], 0, Err(SharesError::ZeroWeights)),
        (&[0], 1, Err(SharesError::ZeroWeights)),
        (&[0, 0, 0], 3, Err(SharesError::ZeroWeights)),
        (&[0, 0, 1], 3, Ok(())),
    ];
    for (weights, length, result) in CASES {
        let mut parts = vec![7; length];
        assert_eq!(shares(100, weights, &mut parts), result, "{weights:?}");
        assert!(result.is_ok() || parts.iter().all(|part| *part == 7));
        let mut parts = vec![7; length];
        let found = shares_by_largest_remainder(100, weights, &mut parts);
        assert_eq!(found, result, "{weights:?}");
        assert!(result.is_ok() || parts.iter().all(|part| *part == 7));
        let mut parts = vec![7; length];
        assert_eq!(signed_shares(-1, weights, &mut parts), result);
        assert!(result.is_ok() || parts.iter().all(|part| *part == 7));
        let mut parts = vec![7; length];
        let found = signed_shares_by_largest_remainder(-1, weights, &mut parts);
        assert_eq!(found, result, "{weights:?}");
        assert!(result.is_ok() || parts.iter().all(|part| *part == 7));
    }
    let texts = [SharesError::DifferentLengths, SharesError::ZeroWeights].map(|e| e.to_string());
    assert_eq!(
        texts,
        [
            "there is not one share for each weight",
            "the weights are all 0"
        ]
    );
}

/// The shares by largest remainders: the weights are sorted by their remainders, and of equal ones the first is first.
fn expected_by_remainder(amount: u64, weights: &[u64]) -> Vec<u64> {
    let total: u128 = weights.iter().map(|weight| u128::from(*weight)).sum();
    let exact = |place: usize| u128::from(amount) * u128::from(weights[place]);
    let mut places: Vec<usize> = (0..weights.len()).collect();
    places.sort_by_key(|place| (Reverse(exact(*place) % total), *place));
    let mut parts: Vec<u64> = (0..weights.len())
        .map(|place| u64::try_from(exact(place) / total).expect("a share fits"))
        .collect();
    let over = amount - parts.iter().sum::<u64>();
    for place in places.into_iter().take(over as usize) {
        parts[place] += 1;
    }
    parts
}

fn found_by_remainder(amount: u64, weights: &[u64]) -> Option<Vec<u64>> {
    let call = |parts: &mut [u64]| shares_by_largest_remainder(amount, weights, parts);
    some(written(weights, call))
}

#[test]
fn largest_remainders_of_small_weights() {
    for weights in (0..=4).flat_map(|length| lists(length, 5)) {
        for amount in 0..30 {
            let some = weights.iter().any(|weight| *weight > 0);
            let expected = some.then(|| expected_by_remainder(amount, &weights));
            assert_eq!(
                found_by_remainder(amount, &weights),
                expected,
                "{amount} {weights:?}"
            );
        }
    }
}

/// Random weights of every length in bits, and amounts of every length.
#[test]
fn largest_remainders_of_random_weights() {
    let mut state = 1u64;
    let mut next = move || {
        state = state.wrapping_mul(0x5851_F42D_4C95_7F2D).wrapping_add(1);
        let high = state ^ (state >> 29);
        high >> (high % 64)
    };
    for _ in 0..20_000 {
        let weights: Vec<u64> = (0..1 + next() % 9).map(|_| next()).collect();
        let amount = next();
        if weights.iter().any(|weight| *weight > 0) {
            let expected = expected_by_remainder(amount, &weights);
            assert_eq!(
                found_by_remainder(amount, &weights),
                Some(expected),
                "{amount} {weights:?}"
            );
        }
    }
}

/// Computed by Python's integers.
#[test]
fn known_largest_remainders() {
    const MOST: u64 = u64::MAX;
    let by_remainder = |amount, weights: &[u64]| found_by_remainder(amount, weights).expect("some");
    assert_eq!(by_remainder(1, &[1, 1_000_000]), [0, 1]);
    assert_eq!(by_remainder(2, &[1, 1, 98]), [0, 0, 2]);
    assert_eq!(by_remainder(100, &[1, 1, 1]), [34, 33, 33]);
    assert_eq!(by_remainder(100, &[1, 2]), [33, 67]);
    assert_eq!(by_remainder(299, &[5, 3, 2]), [149, 90, 60]);
    assert_eq!(by_remainder(10, &[1; 7]), [2, 2, 2, 1, 1, 1, 1]);
    let votes = [47_000, 16_000, 15_900, 12_000, 6_000, 3_100];
    assert_eq!(by_remainder(100, &votes), [47, 16, 16, 12, 6, 3]);
    assert_eq!(by_remainder(MOST, &[MOST]), [MOST]);
    assert_eq!(by_remainder(MOST, &[MOST, 1]), [MOST - 1, 1]);
    assert_eq!(by_remainder(MOST, &[1, MOST]), [1, MOST - 1]);
    assert_eq!(
        by_remainder(MOST, &[1 << 63, (1 << 63) + 1, 5]),
        [9223372036854775805, 9223372036854775805, 5]
    );
    let parts = by_remainder(MOST, &[MOST; 1000]);
    let above = parts.iter().map(|part| part - MOST / 1000);
    assert!(above.eq((0..1000).map(|place| u64::from(place < 615))));
    let weights: Vec<u64> = (0..2000).map(|i: u64| (i * i + 7) % 1013).collect();
    let parts = by_remainder(1_000_000_000_000, &weights);
    let weighed: u64 = (1..).zip(&parts).map(|(place, part)| place * part).sum();
    assert_eq!(weighed, 1_007_781_917_887_286);
}

#[test]
fn large_weights() {
    let half = u64::MAX / 2;
    assert_eq!(found(u64::MAX, &[u64::MAX]), Some(vec![u64::MAX]));
    assert_eq!(found(u64::MAX, &[u64::MAX; 2]), Some(vec![half + 1, half]));
    assert_eq!(found(u64::MAX, &[u64::MAX, 1]), Some(vec![u64::MAX, 0]));
    assert_eq!(found(u64::MAX, &[1, u64::MAX]), Some(vec![1, u64::MAX - 1]));
    let parts = found(u64::MAX, &[u64::MAX; 1000]).expect("the weights are not all 0");
    let sum: u128 = parts.iter().map(|part| u128::from(*part)).sum();
    assert_eq!(sum, u128::from(u64::MAX));
    assert!(parts.iter().all(|part| part.abs_diff(u64::MAX / 1000) <= 1));
}

/// The signed shares that the call writes, or `None` if the weights are all 0.
fn found_signed(amount: i64, weights: &[u64]) -> Option<Vec<i64>> {
    let call = |parts: &mut [i64]| signed_shares(amount, weights, parts);
    some(written(weights, call))
}

#[test]
fn signed_shares_of_small_amounts() {
    for weights in (0..=4).flat_map(|length| lists(length, 4)) {
        for amount in -30i64..30 {
            let magnitudes = found(amount.unsigned_abs(), &weights);
            let expected = magnitudes.map(|parts| {
                let signed = |part: u64| amount.signum() * i64::try_from(part).expect("it fits");
                parts.into_iter().map(signed).collect::<Vec<i64>>()
            });
            let found = found_signed(amount, &weights);
            assert_eq!(found, expected, "{amount} {weights:?}");
        }
    }
}

#[test]
fn signed_shares_at_the_ends() {
    let half = 1i64 << 62;
    assert_eq!(found_signed(-100, &[1, 1, 1]), Some(vec![-34, -33, -33]));
    assert_eq!(found_signed(i64::MIN, &[3]), Some(vec![i64::MIN]));
    assert_eq!(found_signed(i64::MIN, &[1, 1]), Some(vec![-half, -half]));
    assert_eq!(found_signed(i64::MAX, &[1, 1]), Some(vec![half, half - 1]));
    let ends = found_signed(i64::MIN, &[1, u64::MAX]);
    assert_eq!(ends, Some(vec![-1, i64::MIN + 1]));
    assert_eq!(found_signed(i64::MIN, &[]), None);
}

/// The signed shares by largest remainders that the call writes, or `None` if the weights are all 0.
fn found_signed_by_remainder(amount: i64, weights: &[u64]) -> Option<Vec<i64>> {
    let call = |parts: &mut [i64]| signed_shares_by_largest_remainder(amount, weights, parts);
    some(written(weights, call))
}

/// The shares of each small amount, sorted by their remainders.
#[test]
fn signed_remainders_of_small_amounts() {
    for weights in (1..=4).flat_map(|length| lists(length, 4)) {
        let total: u64 = weights.iter().sum();
        for amount in -30i64..30 {
            let exact = weights.iter().map(|weight| amount.unsigned_abs() * weight);
            let mut places: Vec<usize> = (0..weights.len()).collect();
            let expected = (total > 0).then(|| {
                let exact: Vec<u64> = exact.collect();
                let over = amount.unsigned_abs() - exact.iter().map(|part| part / total).sum::<u64>();
                places.sort_by_key(|place| total - exact[*place] % total);
                let more = &places[..usize::try_from(over).expect("it is below the length")];
                let share = |place| exact[place] / total + u64::from(more.contains(&place));
                let signed = |place| amount.signum() * i64::try_from(share(place)).expect("it fits");
                (0..weights.len()).map(signed).collect::<Vec<i64>>()
            });
            let found = found_signed_by_remainder(amount, &weights);
            assert_eq!(found, expected, "{amount} {weights:?}");
        }
    }
}

#[test]
fn signed_remainders_at_the_ends() {
    let half = 1i64 << 62;
    assert_eq!(found_signed_by_remainder(-2, &[1, 1, 98]), Some(vec![0, 0, -2]));
    assert_eq!(found_signed_by_remainder(i64::MIN, &[3]), Some(vec![i64::MIN]));
    assert_eq!(found_signed_by_remainder(i64::MIN, &[1, 1]), Some(vec![-half, -half]));
    assert_eq!(found_signed_by_remainder(i64::MAX, &[1, 1]), Some(vec![half, half - 1]));
    // A third of 2^63 is 3074457345618258602 and two thirds, and the other share has one third.
    let thirds = vec![-3_074_457_345_618_258_603, -6_148_914_691_236_517_205];
    assert_eq!(found_signed_by_remainder(i64::MIN, &[1, 2]), Some(thirds));
    assert_eq!(found_signed_by_remainder(i64::MIN, &[]), None);
}
