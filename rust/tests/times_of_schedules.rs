//! The number of the times of a schedule in a range, against a walk over its times.

use cellarcove::applied::schedules::count;

/// How many times of the schedule are in `from..=to`, if that is at most 127: each time up to `to` is visited.
fn expected(from: i8, to: i8, first: i8, period: i8) -> Option<i8> {
    let times = (i64::from(first)..=i64::from(to)).step_by(period as usize);
    i8::try_from(times.filter(|time| *time >= i64::from(from)).count()).ok()
}

/// Every seventh number, the numbers near 0, and the ends of the type.
fn bytes() -> impl Iterator<Item = i8> + Clone {
    (i8::MIN..=i8::MAX).filter(|x| x % 7 == 0 || x.unsigned_abs() < 4 || x.unsigned_abs() > 125)
}

#[test]
fn times_of_bytes() {
    for period in 1..=i8::MAX {
        for first in bytes() {
            for from in bytes() {
                for to in bytes() {
                    assert_eq!(
                        count(from, to, (first, period).into()),
                        expected(from, to, first, period),
                        "{from} {to} {first} {period}"
                    );
                }
            }
        }
    }
}

#[test]
fn times_at_the_ends() {
    assert_eq!(count(4, 15, (3, 6).into()), Some(2));
    assert_eq!(count(-9, 15, (3, 6).into()), Some(3));
    assert_eq!(count(-9, 2, (3, 6).into()), Some(0));
    assert_eq!(count(15, 4, (3, 6).into()), Some(0));
    assert_eq!(count(0, u64::MAX, (0, 1).into()), None);
    assert_eq!(count(0, u64::MAX, (1, 1).into()), Some(u64::MAX));
    assert_eq!(count(0, u64::MAX, (5, u64::MAX).into()), Some(1));
    assert_eq!(count(i64::MIN, i64::MAX, (i64::MIN, 1).into()), None);
    assert_eq!(count(i64::MIN, i64::MAX, (1, 1).into()), Some(i64::MAX));
    assert_eq!(
        count(i64::MIN, i64::MAX, (i64::MIN, 3).into()),
        Some(6148914691236517206)
    );
    assert_eq!(count(i128::MIN, i128::MAX, (i128::MAX, 1).into()), Some(1));
}
