//! Calls at the ends of each native type.

use cellarcove::{binomial, checked, Average, ExtendedGcd, Fits, Integer, IterBinomial, Roots};

macro_rules! signed {
    ($($name:ident $number:ident)*) => {$(
        #[test]
        fn $name() {
            const MIN: $number = $number::MIN;
            const MAX: $number = $number::MAX;
            assert_eq!(MIN.div_rem(&MAX), (-1, -1));
            assert_eq!(MIN.div_mod_floor(&MAX), (-2, MAX - 1));
            assert_eq!(Integer::div_ceil(&MIN, &MAX), -1);
            assert_eq!(MIN.mod_floor(&-1), 0);
            assert!(MIN.is_multiple_of(&-1) && MIN.is_even() && MAX.is_odd());
            assert_eq!(checked::div_floor(MIN, -1), None);
            assert_eq!(checked::div_floor(MIN, 0), None);
            assert_eq!(MIN.gcd(&MAX), 1);
            assert_eq!(MIN.gcd(&6), 2);
            assert_eq!(checked::gcd(MIN, 0), None);
            assert_eq!(checked::gcd(MIN, MIN), None);
            assert_eq!(checked::lcm(MIN, 0), Some(0));
            assert_eq!(checked::lcm(MIN, 1), None);
            assert_eq!(checked::lcm(MAX, -1), Some(MAX));
            assert_eq!(MIN.extended_gcd(&1), ExtendedGcd { gcd: 1, x: 0, y: 1 });
            assert_eq!(MAX.extended_gcd(&MIN), ExtendedGcd { gcd: 1, x: -1, y: -1 });
            assert_eq!(MIN.average_floor(&MAX), -1);
            assert_eq!(MIN.average_ceil(&MAX), 0);
            assert_eq!(Integer::prev_multiple_of(&MIN, &2), MIN);
            assert_eq!(checked::next_multiple_of(MAX, 2), None);
            assert_eq!((checked::inc(MAX), checked::dec(MIN)), (None, None));
            assert_eq!(checked::negated(MIN), None);
            assert_eq!(binomial(MAX, MAX - 1), MAX);
            assert_eq!(checked::binomial(MAX, 2), None);
            assert_eq!(checked::binomial(-1 as $number, 0), None);
            assert_eq!(IterBinomial::new(MIN).next(), None);
            assert_eq!(MIN.parts(), (true, MIN.unsigned_abs().into_wide()));
        }
    )*};
}

macro_rules! unsigned {
    ($($name:ident $number:ident)*) => {$(
        #[test]
        fn $name() {
            const MAX: $number = $number::MAX;
            assert_eq!(MAX.div_rem(&2), (MAX / 2, 1));
            assert_eq!(Integer::div_ceil(&MAX, &2), MAX / 2 + 1);
            assert_eq!(MAX.gcd(&0), MAX);
            assert_eq!(MAX.gcd(&(MAX - 1)), 1);
            assert_eq!(checked::lcm(MAX, MAX - 1), None);
            assert_eq!(checked::lcm(MAX, MAX), Some(MAX));
            assert_eq!(MAX.extended_gcd(&0), ExtendedGcd { gcd: MAX, x: 1, y: 0 });
            assert_eq!(checked::extended_gcd(MAX, MAX - 1), None);
            assert_eq!(MAX.average_floor(&(MAX - 1)), MAX - 1);
            assert_eq!(MAX.average_ceil(&(MAX - 1)), MAX);
            assert_eq!(checked::next_multiple_of(MAX, 2), None);
            assert_eq!(checked::prev_multiple_of(MAX, 2), Some(MAX - 1));
            assert_eq!((checked::inc(MAX), checked::dec(0 as $number)), (None, None));
            assert_eq!(checked::sum(MAX, 0), Some(MAX));
            assert_eq!(checked::product(MAX, 2), None);
            assert_eq!(binomial(MAX, 1), MAX);
            assert_eq!(checked::binomial(MAX, 2), None);
            assert_eq!(MAX.parts(), (false, MAX.into_wide()));
        }
    )*};
}

/// The root is the greatest number whose power is at most `x`.
fn is_root(x: u128, degree: u32, root: u128) -> bool {
    let next = (root + 1).checked_pow(degree);
    root.pow(degree) <= x && !next.is_some_and(|power| power <= x)
}

macro_rules! rooted {
    ($($name:ident $number:ident)*) => {$(
        #[test]
        fn $name() {
            let (min, max) = ($number::MIN, $number::MAX);
            let magnitude = |x: $number| x.parts().1;
            assert!(is_root(magnitude(max), 2, magnitude(max.sqrt())));
            assert!(is_root(magnitude(max), 3, magnitude(max.cbrt())));
            assert!(is_root(magnitude(min), 3, magnitude(min.cbrt())));
            for degree in [5, 7, 9, 31, 63, 65, u32::MAX] {
                assert!(is_root(magnitude(max), degree.min(127), magnitude(max.nth_root(degree))));
                assert!(is_root(magnitude(min), degree.min(127), magnitude(min.nth_root(degree))));
            }
            assert_eq!((min.nth_root(1), max.nth_root(1)), (min, max));
            assert_eq!(checked::nth_root(max, 0), None);
            assert_eq!(checked::sqrt(min).is_none(), min != 0);
        }
    )*};
}

/// A number as one of 128 bits, which `usize` is not by `From`.
trait IntoWide {
    fn into_wide(self) -> u128;
}

macro_rules! into_wide {
    ($($number:ident)*) => {$(
        impl IntoWide for $number {
            fn into_wide(self) -> u128 {
                self as u128
            }
        }
    )*};
}

into_wide! { u8 u16 u32 u64 u128 usize }
signed! { ends_of_i8 i8 ends_of_i16 i16 ends_of_i32 i32 ends_of_i64 i64 ends_of_i128 i128 ends_of_isize isize }
unsigned! { ends_of_u8 u8 ends_of_u16 u16 ends_of_u32 u32 ends_of_u64 u64 ends_of_u128 u128 ends_of_usize usize }
rooted! { roots_of_i8 i8 roots_of_i16 i16 roots_of_i32 i32 roots_of_i64 i64 roots_of_isize isize }
rooted! { roots_of_u8 u8 roots_of_u16 u16 roots_of_u32 u32 roots_of_u64 u64 roots_of_usize usize }
