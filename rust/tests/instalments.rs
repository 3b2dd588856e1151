//! Instalments: each list of small amounts and counts against its definition, the ends of the types, and payment plans of a
//! textbook's kind, computed by hand.

use cellarcove::applied::shares::instalments;

fn listed(amount: i64, count: i64) -> Vec<i64> {
    instalments(amount, count).collect()
}

#[test]
fn known_plans() {
    assert_eq!(listed(100, 3), [34, 33, 33]);
    assert_eq!(listed(-100, 3), [-34, -33, -33]);
    assert_eq!(listed(100, 7), [16, 14, 14, 14, 14, 14, 14]);
    assert_eq!(listed(2, 3), [2, 0, 0]);
    assert_eq!(listed(5, 1), [5]);
    assert_eq!(listed(0, 2), [0, 0]);
    // 999.99 in 12 months: eleven times 83.33, and 83.36, since 12 times 83.33 is 999.96
    let plan = listed(99_999, 12);
    assert_eq!((plan[0], &plan[1..]), (8336, &[8333; 11][..]));
}

#[test]
fn small_amounts() {
    for amount in -60i8..60 {
        for count in 1i8..30 {
            let plan: Vec<i8> = instalments(amount, count).collect();
            let wide = |item: &i8| i32::from(*item);
            assert_eq!(plan.len(), usize::try_from(count).expect("it is positive"));
            assert_eq!(plan.iter().map(wide).sum::<i32>(), i32::from(amount));
            let other = plan.get(1).unwrap_or(&plan[0]);
            assert!(plan[1..].iter().all(|item| item == other));
            let above = (wide(&plan[0]) - wide(other)) * i32::from(amount.signum());
            assert!((0..i32::from(count)).contains(&above), "{amount} {count}");
            assert!(plan[0] - other == 0 || amount != 0);
        }
    }
}

#[test]
fn ends_of_the_types() {
    assert_eq!(instalments(u64::MAX, 2).collect::<Vec<_>>(), [1 << 63, (1 << 63) - 1]);
    assert_eq!(instalments(i64::MIN, 1).collect::<Vec<_>>(), [i64::MIN]);
    assert_eq!(listed(i64::MIN, 2), [i64::MIN / 2; 2]);
    assert_eq!(instalments(i64::MAX, i64::MAX).next(), Some(1));
    assert_eq!(instalments(i64::MAX - 1, i64::MAX).next(), Some(i64::MAX - 1));
    assert_eq!(instalments(u128::MAX, u128::MAX).nth(1), Some(1));
    assert_eq!(instalments(255u8, 255).map(u32::from).sum::<u32>(), 255);
}

#[test]
fn none_for_good() {
    let mut plan = instalments(7u8, 2);
    assert_eq!(plan.clone(), plan);
    assert_eq!([plan.next(), plan.next(), plan.next(), plan.next()], [Some(4), Some(3), None, None]);
}
