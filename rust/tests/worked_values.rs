//! Worked values of `modular` and `applied` at each native type, most of them at the ends of the type.

#[macro_use]
mod common;

use cellarcove::applied::halving::midpoint;
use cellarcove::applied::layout::{align_up, padding};
use cellarcove::applied::paging::{pages, place_of, range_of_page, range_of_part};
use cellarcove::applied::schedules::next_meeting;
use cellarcove::counted::power_modulo_counted;
use cellarcove::modular::CommonSolution::{self, At, Beyond, Never};
use cellarcove::modular::{
    chinese_remainder, count_congruent, difference_modulo, inverse_modulo, negation_modulo,
    next_common_solution, next_common_solution_of, next_congruent, power_modulo,
    previous_congruent, product_modulo, quotient_modulo, residue, solutions, sum_modulo,
    Congruence, Modular,
};
use std::fmt::Debug;

/// The largest primes of 64 and of 128 bits.
const P64: u64 = 18446744073709551557;
const P128: u128 = 340282366920938463463374607431768211297;

/// The power and the iterations, by both calls.
fn power<T: Modular + Copy + Debug>(a: T, exponent: u128, m: T) -> (T, u32) {
    let (power, iterations) = power_modulo_counted(a, exponent, m);
    assert_eq!(power_modulo(a, exponent, m), power);
    (power, iterations)
}

#[test]
fn residues() {
    assert_eq!(residue(-3i64, 7), 4);
    assert_eq!(negation_modulo(-3i64, 7), 3);
    assert_eq!(residue(i64::MIN, 7), 6);
    assert_eq!(negation_modulo(i64::MIN, 7), 1);
    assert_eq!(residue(i64::MAX, 7), 0);
    assert_eq!(negation_modulo(i64::MAX, 7), 0);
    assert_eq!(residue(9i64, 1), 0);
    assert_eq!(negation_modulo(9i64, 1), 0);
    assert_eq!(residue(i64::MIN, i64::MAX), i64::MAX - 1);
    assert_eq!(negation_modulo(i64::MIN, i64::MAX), 1);
    assert_eq!(residue(0i64, i64::MAX), 0);
    assert_eq!(negation_modulo(0i64, i64::MAX), 0);
    assert_eq!(negation_modulo(2u8, 7), 5);
    assert_eq!(negation_modulo(7u8, 7), 0);
    assert_eq!(sum_modulo(2i64, 5, 7), 0);
    assert_eq!(difference_modulo(2i64, 5, 7), 4);
    assert_eq!(product_modulo(2i64, 5, 7), 3);
    assert_eq!(sum_modulo(5i64, 2, 7), 0);
    assert_eq!(difference_modulo(5i64, 2, 7), 3);
    assert_eq!(product_modulo(5i64, 2, 7), 3);
    assert_eq!(sum_modulo(i64::MIN, -1, i64::MAX), i64::MAX - 2);
    assert_eq!(difference_modulo(i64::MIN, -1, i64::MAX), 0);
    assert_eq!(product_modulo(i64::MIN, -1, i64::MAX), 1);
    assert_eq!(sum_modulo(i64::MAX, i64::MAX, i64::MAX), 0);
    assert_eq!(difference_modulo(i64::MAX, i64::MAX, i64::MAX), 0);
    assert_eq!(product_modulo(i64::MAX, i64::MAX, i64::MAX), 0);
    assert_eq!(sum_modulo(i64::MIN, i64::MIN, i64::MAX), i64::MAX - 2);
    assert_eq!(difference_modulo(i64::MIN, i64::MIN, i64::MAX), 0);
    assert_eq!(product_modulo(i64::MIN, i64::MIN, i64::MAX), 1);
    assert_eq!(sum_modulo(200u8, 100, 201), 99);
    assert_eq!(difference_modulo(3u8, 200, u8::MAX), 58);
    assert_eq!(product_modulo(i64::MIN, i64::MAX, 1000003), 174587);
    assert_eq!(product_modulo(5u8, 5, 1), 0);
    assert_eq!(product_modulo(P64 - 1, P64 - 2, P64), 2);
    assert_eq!(power(-5i64, 13, 1000), (875, 3));
    assert_eq!(power(-5i64, 12, 1000), (625, 3));
    assert_eq!(power(-5i64, 13, 2147483647), (926780522, 3));
    assert_eq!(power(0i64, 0, 7), (1, 0));
    assert_eq!(power(0i64, 0, 1), (0, 0));
    assert_eq!(power(3i64, 1, 2), (1, 0));
    assert_eq!(power(2i64, 2, 1000), (4, 1));
    assert_eq!(power(2i64, 255, 1000), (968, 7));
    assert_eq!(power(2i64, 256, 1000), (936, 8));
    assert_eq!(power(10i64, u128::MAX, 11), (10, 127));
    assert_eq!(
        power(3u64, 1000000000000000000, P64),
        (4014180641660839766, 59)
    );
    assert_eq!(power(3u64, 18446744073709551556, P64), (1, 63));
    assert_eq!(inverse_modulo(3i64, 7), Some(5));
    assert_eq!(inverse_modulo(4i64, 6), None);
    assert_eq!(inverse_modulo(-3i64, 7), Some(2));
    assert_eq!(inverse_modulo(10i64, 17), Some(12));
    assert_eq!(inverse_modulo(5i64, 1), Some(0));
    assert_eq!(inverse_modulo(0i64, 1), Some(0));
    assert_eq!(inverse_modulo(0i64, 2), None);
    assert_eq!(inverse_modulo(i64::MIN, i64::MAX), Some(i64::MAX - 1));
    assert_eq!(inverse_modulo(3u64, P64), Some(6148914691236517186));
    assert_eq!(quotient_modulo(2i64, 3, 7), Some(3));
    assert_eq!(quotient_modulo(2i64, 4, 6), None);
    assert_eq!(quotient_modulo(-1i64, -3, 7), Some(5));
    assert_eq!(quotient_modulo(7i64, 7, 1), Some(0));
    assert_eq!(quotient_modulo(0i64, 0, 5), None);
    assert_eq!(
        quotient_modulo(1i64, i64::MIN, i64::MAX),
        Some(i64::MAX - 1)
    );
    assert_eq!(product_modulo(i128::MIN, i128::MIN, i128::MAX), 1);
    assert_eq!(
        sum_modulo(u128::MAX, u128::MAX - 1, u128::MAX),
        u128::MAX - 1
    );
    assert_eq!(product_modulo(P128 - 1, P128 - 2, P128), 2);
    assert_eq!(product_modulo(u128::MAX, u128::MAX, u128::MAX - 1), 1);
    assert_eq!(
        product_modulo(
            100000000000000000000000000000000000000u128,
            30000000000000000000000000000000000000,
            P128
        ),
        258425427919566434266771610029845894661
    );
    assert_eq!(power(3u128, P128 - 1, P128), (1, 127));
    assert_eq!(
        power(3u128, 1267650600228229401496703205383, P128),
        (127217210967892199878414826638185792867, 100)
    );
    assert_eq!(
        inverse_modulo(3u128, P128),
        Some(226854911280625642308916404954512140865)
    );
    assert_eq!(
        inverse_modulo(1000000000000000000000000000000u128, P128),
        Some(220185386694555189540702570464961134522)
    );
    assert_eq!(
        inverse_modulo(u128::MAX - 1, u128::MAX),
        Some(u128::MAX - 1)
    );
    assert_eq!(quotient_modulo(P128 - 2, P128 - 1, P128), Some(2));
    assert_eq!(
        solutions(
            12345678901234567890123456789u128,
            98765432109876543210,
            u128::MAX - 1
        ),
        Some((307881547042602639720991638492654390550, u128::MAX - 1))
    );
    assert_eq!(previous_congruent(u128::MAX, 7, u128::MAX), Some(7));
}

#[test]
fn congruences() {
    returns! {
        solutions(6u8, 4, 10) => Some((4, 5));
        solutions(0u8, 1, 5) => None;
        solutions(5u8, 0, 1) => Some((0, 1));
        solutions(200u8, 40, 240) => Some((5, 6));
        solutions(6i8, 3, 10) => None;
        solutions(-3i8, 2, 7) => Some((4, 7));
        solutions(0i8, 0, 5) => Some((0, 1));
        solutions(6000000000000000002u64, 4, 10000000000000000000)
            => Some((4000000000000000002, 5000000000000000000));
        chinese_remainder((1i64, 4).into(), (3, 6).into()) => Some((9, 12).into());
        chinese_remainder((1i64, 4).into(), (2, 6).into()) => None;
        chinese_remainder((2i64, 3).into(), (3, 5).into()) => Some((8, 15).into());
        chinese_remainder((-1i64, 4).into(), (5, 9).into()) => Some((23, 36).into());
        chinese_remainder((7i64, 1).into(), (3, 1).into()) => Some((0, 1).into());
        chinese_remainder((3i64, 100).into(), (53, 120).into()) => None;
        chinese_remainder((5i64, 6).into(), (1, 4).into()) => Some((5, 12).into());
        chinese_remainder((100i64, 200).into(), (20, 80).into()) => Some((100, 400).into());
        chinese_remainder((i64::MIN, i64::MAX).into(), (-1, 1).into())
            => Some((i64::MAX - 1, i64::MAX).into());
        chinese_remainder((5u64, 4294967291).into(), (7, 4294967279).into())
            => Some((3074457330585873085, 18446743979220271189).into());
        next_congruent(10i64, 1, 4) => Some(13);
        next_congruent(-10i64, 1, 4) => Some(-7);
        next_congruent(13i64, 1, 4) => Some(13);
        next_congruent(i64::MAX, i64::MAX, 5) => Some(i64::MAX);
        next_congruent(i64::MIN, i64::MAX, i64::MAX) => Some(i64::MIN + 1);
        next_congruent(i64::MAX, 0, 2) => None;
        next_congruent(i64::MAX - 1, 0, 2) => Some(i64::MAX - 1);
        next_congruent(120i8, 1, 9) => Some(127);
        next_congruent(120i8, 2, 9) => None;
        previous_congruent(10i64, 1, 4) => Some(9);
        previous_congruent(-10i64, 1, 4) => Some(-11);
        previous_congruent(9i64, 1, 4) => Some(9);
        previous_congruent(i64::MIN, i64::MIN, 5) => Some(i64::MIN);
        previous_congruent(i64::MAX, i64::MIN, i64::MAX) => Some(i64::MAX - 1);
        previous_congruent(i64::MIN, 1, 2) => None;
        previous_congruent(i64::MIN + 1, 1, 2) => Some(i64::MIN + 1);
        previous_congruent(3u8, 4, 9) => None;
        previous_congruent(4u8, 4, 9) => Some(4);
        count_congruent(-128i8, 127, 0, 2) => None;
        count_congruent(-128i8, 127, 0, 3) => Some(85);
        count_congruent(-127i8, 127, 0, 2) => Some(127);
        count_congruent(-127i8, 127, 1, 2) => None;
        count_congruent(1i8, 10, 1, 4) => Some(3);
        count_congruent(1i8, 0, 0, 1) => Some(0);
        count_congruent(127i8, -128, 0, 1) => Some(0);
        count_congruent(127i8, 127, 1, 2) => Some(1);
        count_congruent(127i8, 127, 0, 2) => Some(0);
        count_congruent(-128i8, -128, -128, 127) => Some(1);
        count_congruent(0u64, u64::MAX, 0, 1) => None;
        count_congruent(1u64, u64::MAX, 0, 1) => Some(u64::MAX);
        count_congruent(i64::MIN, i64::MAX, 0, 2) => None;
        count_congruent(i64::MIN, i64::MAX, 0, 3) => Some(6148914691236517205);
        count_congruent(i128::MIN, i128::MAX, 0, i128::MAX) => Some(3);
    }
}

#[test]
fn next_common_solutions() {
    returns! {
        next_common_solution(10i8, (1, 4).into(), (3, 6).into()) => At(21);
        next_common_solution(21i8, (1, 4).into(), (3, 6).into()) => At(21);
        next_common_solution(-20i8, (1, 4).into(), (3, 6).into()) => At(-15);
        next_common_solution(10i8, (1, 4).into(), (2, 6).into()) => Never;
        next_common_solution(118i8, (1, 4).into(), (3, 6).into()) => Beyond;
        next_common_solution(-128i8, (5, 10).into(), (0, 13).into()) => At(-65);
        next_common_solution(-64i8, (5, 10).into(), (0, 13).into()) => At(65);
        next_common_solution(66i8, (5, 10).into(), (0, 13).into()) => Beyond;
        next_common_solution(-128i8, (2, 10).into(), (2, 13).into()) => At(-128);
        next_common_solution(-127i8, (2, 10).into(), (2, 13).into()) => At(2);
        next_common_solution(-128i8, (7, 127).into(), (7, 126).into()) => At(7);
        next_common_solution(127i8, (0, 1).into(), (-1, 1).into()) => At(127);
        next_common_solution(0u128, (5, u128::MAX).into(), (5, u128::MAX - 1).into()) => At(5);
        next_common_solution(6u128, (5, u128::MAX).into(), (5, u128::MAX - 1).into()) => Beyond;
    }
}

#[test]
fn pages_parts_offsets_and_middles() {
    returns! {
        pages(10i64, 4) => 3;
        place_of(10i64, 4) => (2, 2);
        pages(8i64, 4) => 2;
        place_of(8i64, 4) => (2, 0);
        pages(0i64, 4) => 0;
        place_of(0i64, 4) => (0, 0);
        pages(i64::MAX, 2) => 4611686018427387904;
        place_of(i64::MAX, 2) => (4611686018427387903, 1);
        pages(-3i64, 2) => -1;
        place_of(-3i64, 2) => (-2, 1);
        pages(-1i64, 4) => 0;
        place_of(-1i64, 4) => (-1, 3);
        pages(-9i64, 4) => -2;
        place_of(-9i64, 4) => (-3, 3);
        pages(10u8, 4) => 3;
        align_up(13i64, 8) => Some(16);
        padding(13i64, 8) => 3;
        align_up(-13i64, 8) => Some(-8);
        padding(-13i64, 8) => 5;
        align_up(16i64, 8) => Some(16);
        padding(16i64, 8) => 0;
        align_up(i64::MIN, 8) => Some(i64::MIN);
        padding(i64::MIN, 8) => 0;
        align_up(i64::MAX, 16) => None;
        padding(i64::MAX, 16) => 1;
        align_up(0i64, 1) => Some(0);
        padding(0i64, 1) => 0;
        align_up(250u8, 8) => None;
        padding(u64::MAX, 8) => 1;
        midpoint(2i64, 5) => 3;
        midpoint(5i64, 2) => 3;
        midpoint(-5i64, -2) => -4;
        midpoint(-2i64, -5) => -4;
        midpoint(i64::MAX - 1, i64::MAX) => i64::MAX - 1;
        midpoint(i64::MAX, i64::MAX - 1) => i64::MAX - 1;
        midpoint(i64::MIN, i64::MAX) => -1;
        midpoint(i64::MAX, i64::MIN) => -1;
        midpoint(7i64, 7) => 7;
        midpoint(7u8, 7) => 7;
        midpoint(u8::MAX - 1, u8::MAX) => u8::MAX - 1;
        midpoint(-1i8, 0) => -1;
        range_of_page(25u8, 10, u8::MAX) => (250, u8::MAX);
        range_of_page(u8::MAX, 1, u8::MAX) => (u8::MAX, u8::MAX);
        range_of_page(6553u16, 10, u16::MAX) => (65530, u16::MAX);
        range_of_page(429496729u32, 10, u32::MAX) => (4294967290, u32::MAX);
        range_of_page(1844674407370955161u64, 10, u64::MAX) => (18446744073709551610, u64::MAX);
        range_of_page(1844674407370955162u64, 10, u64::MAX) => (u64::MAX, u64::MAX);
        range_of_page(u64::MAX, u64::MAX, u64::MAX) => (u64::MAX, u64::MAX);
        range_of_page(0u64, u64::MAX, u64::MAX) => (0, u64::MAX);
        range_of_page(1usize, usize::MAX, usize::MAX) => (usize::MAX, usize::MAX);
        range_of_page(0usize, 4, 10) => (0, 4);
        range_of_page(2usize, 4, 10) => (8, 10);
        range_of_page(3usize, 4, 10) => (10, 10);
        range_of_page(usize::MAX, 4, 10) => (10, 10);
        range_of_page(12i8, 10, 127) => (120, 127);
        range_of_page(-128i8, 127, 127) => (127, 127);
        range_of_page(3276i16, 10, i16::MAX) => (32760, i16::MAX);
        range_of_page(1i32, i32::MAX, i32::MAX) => (i32::MAX, i32::MAX);
        range_of_page(0i64, i64::MAX, i64::MAX) => (0, i64::MAX);
        range_of_page(i64::MIN, 1, i64::MAX) => (i64::MAX, i64::MAX);
        range_of_page(1i128, i128::MAX - 1, i128::MAX) => (i128::MAX - 1, i128::MAX);
        range_of_page(-1isize, 1, 0) => (0, 0);
        range_of_part(1u8, 2, u8::MAX) => (128, u8::MAX);
        range_of_part(u8::MAX - 2, u8::MAX - 1, u8::MAX) => (u8::MAX - 1, u8::MAX);
        range_of_part(0u16, 1, u16::MAX) => (0, u16::MAX);
        range_of_part(2u32, 4, u32::MAX) => (2147483648, 3221225472);
        range_of_part(u64::MAX - 1, u64::MAX, u64::MAX) => (u64::MAX - 1, u64::MAX);
        range_of_part(u64::MAX - 1, u64::MAX, 1) => (1, 1);
        range_of_part(6u64, 7, u64::MAX) => (15811494920322472813, u64::MAX);
        range_of_part(0usize, usize::MAX, 0) => (0, 0);
        range_of_part(1i8, 2, 127) => (64, 127);
        range_of_part(2i16, 3, i16::MAX) => (21845, i16::MAX);
        range_of_part(0i32, i32::MAX, i32::MAX) => (0, 1);
        range_of_part(1i64, 2, i64::MAX) => (4611686018427387904, i64::MAX);
        range_of_part(0i128, 1, i128::MAX) => (0, i128::MAX);
        range_of_part(0isize, 1, 0) => (0, 0);
        range_of_page(1u128, u128::MAX - 1, u128::MAX) => (u128::MAX - 1, u128::MAX);
        range_of_part(0u128, 2, u128::MAX) => (0, 170141183460469231731687303715884105728);
    }
}

#[test]
fn meetings() {
    assert_eq!(next_meeting(10i8, (1, 4).into(), (3, 6).into()), At(21));
    assert_eq!(next_meeting(21i8, (1, 4).into(), (3, 6).into()), At(21));
    assert_eq!(next_meeting(0i8, (1, 4).into(), (2, 6).into()), Never);
    assert_eq!(next_meeting(-20i8, (-5, 6).into(), (1, 4).into()), At(1));
    assert_eq!(next_meeting(5i8, (100, 7).into(), (3, 5).into()), Beyond);
    assert_eq!(next_meeting(5i8, (93, 7).into(), (3, 5).into()), At(93));
    assert_eq!(next_meeting(100i8, (1, 4).into(), (3, 6).into()), At(105));
    assert_eq!(next_meeting(100i8, (0, 10).into(), (0, 12).into()), At(120));
    assert_eq!(next_meeting(5i8, (5, 10).into(), (0, 13).into()), At(65));
    assert_eq!(next_meeting(66i8, (5, 10).into(), (0, 13).into()), Beyond);
    assert_eq!(
        next_meeting(-128i8, (-128, 127).into(), (-128, 126).into()),
        At(-128)
    );
    // not before the first time of either
    assert_eq!(next_meeting(0i8, (0, 1).into(), (50, 10).into()), At(50));
    assert_eq!(next_meeting(0i8, (50, 10).into(), (0, 1).into()), At(50));
    assert_eq!(
        next_meeting(-128i8, (-3, 4).into(), (61, 32).into()),
        At(61)
    );
    assert_eq!(next_meeting(10u8, (1, 4).into(), (3, 6).into()), At(21));
    assert_eq!(next_meeting(250u8, (1, 4).into(), (3, 6).into()), Beyond);
}

/// Where to begin, three congruences, and the next number that solves each.
type Row = (i8, [(i8, i8); 3], CommonSolution<i8>);

const NEXT_OF_THREE: [Row; 8] = [
    (-128, [(0, 11), (0, 13), (0, 7)], At(0)),
    (0, [(0, 11), (0, 13), (0, 7)], At(0)),
    (1, [(0, 11), (0, 13), (0, 7)], Beyond),
    (10, [(1, 4), (3, 6), (0, 7)], At(21)),
    (22, [(1, 4), (3, 6), (0, 7)], At(105)),
    // an odd and an even number, two numbers of one modulus, one number of three moduli
    (10, [(1, 4), (0, 5), (2, 6)], Never),
    (-128, [(1, 100), (0, 99), (2, 100)], Never),
    (-128, [(28, 126), (28, 127), (28, 125)], At(28)),
];

#[test]
fn next_common_solutions_of_several() {
    for (from, congruences, next) in NEXT_OF_THREE {
        let found = next_common_solution_of(from, &congruences.map(Congruence::from));
        assert_eq!(found, next, "{from} {congruences:?}");
    }
    assert_eq!(next_common_solution_of(127i8, &[]), At(127));
    assert_eq!(
        next_common_solution_of(-128i8, &[(-1, 127).into()]),
        At(-128)
    );
    // No type has the common multiple of these moduli.
    let (m, n, k) = (u128::MAX, u128::MAX - 1, u128::MAX - 2);
    returns! {
        next_common_solution_of(0, &[(5, m).into(), (5, n).into(), (5, k).into()]) => At(5);
        next_common_solution_of(6, &[(5, m).into(), (5, n).into(), (5, k).into()]) => Beyond;
        next_common_solution_of(0, &[(5, m).into(), (5, n).into(), (4, n).into()]) => Never;
    }
    let (least, m) = (i64::MIN, i64::MAX);
    returns! {
        next_common_solution_of(least, &[(-1, m).into(), (-1, m - 1).into(), (-1, 7).into()])
            => At(-1);
        next_common_solution_of(least, &[(0, m).into(), (-1, m - 1).into()]) => At(-m);
    }
}

macro_rules! residues_at_the_ends {
    ($($name:ident $number:ident)*) => {$(
        /// Each call at the ends and at 0, 1 and 2, modulo the largest number, against small congruent numbers.
        #[test]
        fn $name() {
            const LOW: $number = $number::MIN;
            const M: $number = $number::MAX;
            // The number of the type that is from 0 to below the modulus, and congruent to a small number.
            let rest = |z: i8| if z < 0 { M - z.unsigned_abs() as $number } else { z as $number };
            let half = M / 2;
            // The quotient of two numbers from -1 to 2.
            let quotient = |z: i8, divisor: i8| match (z, divisor) {
                (z, 1) => Some(rest(z)),
                (z, -1) => Some(rest(-z)),
                (1, 2) => Some(half + 1),
                (-1, 2) => Some(half),
                (z, 2) => Some(rest(z / 2)),
                _ => None,
            };
            let numbers = [(LOW, if LOW == 0 { 0 } else { -1 }), (0, 0), (1, 1), (2, 2), (M - 1, -1), (M, 0)];
            for (a, z) in numbers {
                assert_eq!((residue(a, M), negation_modulo(a, M)), (rest(z), rest(-z)), "{a}");
                assert_eq!(inverse_modulo(a, M), quotient(1, z), "{a}");
                for (degree, iterations) in [(0, 0), (1, 0), (2, 1), (5, 2)] {
                    assert_eq!(power(a, u128::from(degree), M), (rest(z.pow(degree)), iterations), "{a} {degree}");
                }
                for (b, w) in numbers {
                    assert_eq!(sum_modulo(a, b, M), rest(z + w), "{a} {b}");
                    assert_eq!(difference_modulo(a, b, M), rest(z - w), "{a} {b}");
                    assert_eq!(product_modulo(a, b, M), rest(z * w), "{a} {b}");
                    assert_eq!(quotient_modulo(a, b, M), quotient(z, w), "{a} {b}");
                    let class = if z == 0 {
                        (w == 0).then_some((0, 1))
                    } else {
                        quotient(w, z).map(|first| (first, M))
                    };
                    assert_eq!(solutions(a, b, M), class, "{a} {b}");
                    let both = (z == w).then_some((rest(z), M).into());
                    assert_eq!(chinese_remainder((a, M).into(), (b, M).into()), both, "{a} {b}");
                    let next = a.checked_add(rest(w - z));
                    assert_eq!(next_congruent(a, b, M), next, "{a} {b}");
                    let solution = next.map_or(Beyond, At);
                    assert_eq!(next_common_solution(a, (b, M).into(), (b, M).into()), solution, "{a} {b}");
                    let itself = if z == w { At(a) } else { Never };
                    assert_eq!(next_common_solution(a, (a, M).into(), (b, M).into()), itself, "{a} {b}");
                }
            }
        }
    )*};
}

residues_at_the_ends! { ends_of_i8 i8 ends_of_i16 i16 ends_of_i32 i32 ends_of_i64 i64 ends_of_i128 i128 ends_of_isize isize }
residues_at_the_ends! { ends_of_u8 u8 ends_of_u16 u16 ends_of_u32 u32 ends_of_u64 u64 ends_of_u128 u128 ends_of_usize usize }
