/* Each call once or more: a result, and each status that it has. What the results are is proved; this tries that
 * they reach C, field by field. */
#include "cellarcove.h"

#include <inttypes.h>
#include <stdio.h>
#include <string.h>

static int failed = 0;
static int passed = 0;

#define CHECK(claim)                                              \
    do {                                                          \
        if (claim) {                                              \
            passed++;                                             \
        } else {                                                  \
            failed++;                                             \
            printf("FAIL line %d: %s\n", __LINE__, #claim);       \
        }                                                         \
    } while (0)

#define ANSWERS(call, wanted)                                     \
    CHECK((call).status == CELLARCOVE_ANSWER && (call).value == (wanted))

#define REFUSES(call, reason)                                     \
    CHECK((call).status == (reason) && (call).value == 0)

static void layout(void) {
#ifndef __i386__ /* which aligns 64 bits at 4 bytes */
    CHECK(sizeof(cellarcove_i64_answer) == 16 && sizeof(cellarcove_u64_answer) == 16);
    CHECK(sizeof(cellarcove_i64_division) == 24 && sizeof(cellarcove_u64_division) == 24);
    CHECK(sizeof(cellarcove_i64_solutions) == 24 && sizeof(cellarcove_u64_solutions) == 24);
    CHECK(sizeof(cellarcove_i64_gcd_lcm) == 24 && sizeof(cellarcove_u64_gcd_lcm) == 24);
    CHECK(sizeof(cellarcove_i64_root) == 24 && sizeof(cellarcove_u64_root) == 24);
    CHECK(sizeof(cellarcove_i64_place) == 24 && sizeof(cellarcove_u64_place) == 24);
    CHECK(sizeof(cellarcove_i64_range) == 24 && sizeof(cellarcove_u64_range) == 24);
    CHECK(sizeof(cellarcove_i64_pair) == 16 && sizeof(cellarcove_u64_pair) == 16);
    CHECK(sizeof(cellarcove_i64_bezout) == 32);
    CHECK(sizeof(cellarcove_fraction) == 16 && sizeof(cellarcove_fraction_answer) == 24);
    CHECK(sizeof(cellarcove_order_answer) == 8);
    CHECK(sizeof(cellarcove_date) == 16 && sizeof(cellarcove_date_answer) == 24);
    CHECK(sizeof(cellarcove_iso_week_answer) == 16);
    CHECK(sizeof(cellarcove_i64_congruence) == 16 && sizeof(cellarcove_u64_congruence) == 16);
#endif
}

static void words(void) {
    CHECK(strcmp(cellarcove_status_text(CELLARCOVE_NO_DATE), "there is no such date") == 0);
    CHECK(strcmp(cellarcove_status_text(7), "no status") == 0);
    CHECK(strcmp(cellarcove_version(), CELLARCOVE_VERSION) == 0);
    CHECK(strcmp(cellarcove_built_by(), "rattle") == 0 || strcmp(cellarcove_built_by(), "cargo") == 0);
    CHECK(strcmp(CELLARCOVE_VERSION, "0.1") > 0);
}

static void operators(void) {
    ANSWERS(cellarcove_checked_sum_i64(INT64_MAX, INT64_MIN), -1);
    REFUSES(cellarcove_checked_sum_i64(INT64_MAX, 1), CELLARCOVE_NOT_FITTING);
    ANSWERS(cellarcove_checked_sum_u64(UINT64_MAX, 0), UINT64_MAX);
    REFUSES(cellarcove_checked_sum_u64(UINT64_MAX, 1), CELLARCOVE_NOT_FITTING);
    ANSWERS(cellarcove_checked_difference_i64(2, 3), -1);
    REFUSES(cellarcove_checked_difference_i64(0, INT64_MIN), CELLARCOVE_NOT_FITTING);
    ANSWERS(cellarcove_checked_difference_u64(3, 2), 1);
    REFUSES(cellarcove_checked_difference_u64(2, 3), CELLARCOVE_NOT_FITTING);
    ANSWERS(cellarcove_checked_product_i64(INT64_MIN, 1), INT64_MIN);
    REFUSES(cellarcove_checked_product_i64(INT64_MIN, -1), CELLARCOVE_NOT_FITTING);
    ANSWERS(cellarcove_checked_product_u64(UINT32_MAX, UINT32_MAX), UINT64_C(18446744065119617025));
    REFUSES(cellarcove_checked_product_u64(UINT64_MAX, 2), CELLARCOVE_NOT_FITTING);
}

static void division(void) {
    cellarcove_i64_division d = cellarcove_div_rem_i64(-8, 3);
    CHECK(d.status == CELLARCOVE_ANSWER && d.quotient == -2 && d.remainder == -2);
    d = cellarcove_div_rem_i64(INT64_MIN, -1);
    CHECK(d.status == CELLARCOVE_NOT_FITTING && d.quotient == 0 && d.remainder == 0);
    d = cellarcove_div_rem_i64(INT64_MIN, 0);
    CHECK(d.status == CELLARCOVE_OUTSIDE && d.quotient == 0 && d.remainder == 0);
    d = cellarcove_div_mod_floor_i64(-8, 3);
    CHECK(d.status == CELLARCOVE_ANSWER && d.quotient == -3 && d.remainder == 1);
    cellarcove_u64_division e = cellarcove_div_rem_u64(UINT64_MAX, 10);
    CHECK(e.status == CELLARCOVE_ANSWER && e.quotient == UINT64_MAX / 10 && e.remainder == 5);
    e = cellarcove_div_mod_floor_u64(8, 3);
    CHECK(e.status == CELLARCOVE_ANSWER && e.quotient == 2 && e.remainder == 2);
    e = cellarcove_div_mod_floor_u64(8, 0);
    CHECK(e.status == CELLARCOVE_OUTSIDE && e.quotient == 0 && e.remainder == 0);
    d = cellarcove_product_div_mod_floor_i64(INT64_MIN, -1, -1);
    CHECK(d.status == CELLARCOVE_ANSWER && d.quotient == INT64_MIN && d.remainder == 0);
    d = cellarcove_product_div_mod_floor_i64(INT64_MIN, -1, 1);
    CHECK(d.status == CELLARCOVE_NOT_FITTING && d.quotient == 0 && d.remainder == 0);
    d = cellarcove_product_div_mod_floor_i64(INT64_MIN, -1, 0);
    CHECK(d.status == CELLARCOVE_OUTSIDE && d.quotient == 0 && d.remainder == 0);
    e = cellarcove_product_div_mod_floor_u64(UINT64_MAX, UINT64_MAX, UINT64_MAX);
    CHECK(e.status == CELLARCOVE_ANSWER && e.quotient == UINT64_MAX && e.remainder == 0);
    e = cellarcove_product_div_mod_floor_u64(UINT64_MAX, 2, 1);
    CHECK(e.status == CELLARCOVE_NOT_FITTING && e.quotient == 0 && e.remainder == 0);
    e = cellarcove_product_div_mod_floor_u64(UINT64_MAX, 2, 0);
    CHECK(e.status == CELLARCOVE_OUTSIDE && e.quotient == 0 && e.remainder == 0);
    ANSWERS(cellarcove_div_floor_i64(-8, 3), -3);
    REFUSES(cellarcove_div_floor_i64(1, 0), CELLARCOVE_OUTSIDE);
    REFUSES(cellarcove_div_floor_i64(INT64_MIN, -1), CELLARCOVE_NOT_FITTING);
    ANSWERS(cellarcove_div_floor_u64(UINT64_MAX, 1), UINT64_MAX);
    REFUSES(cellarcove_div_floor_u64(UINT64_MAX, 0), CELLARCOVE_OUTSIDE);
    ANSWERS(cellarcove_div_ceil_i64(8, 3), 3);
    REFUSES(cellarcove_div_ceil_i64(8, 0), CELLARCOVE_OUTSIDE);
    REFUSES(cellarcove_div_ceil_i64(INT64_MIN, -1), CELLARCOVE_NOT_FITTING);
    ANSWERS(cellarcove_div_ceil_u64(9, 3), 3);
    ANSWERS(cellarcove_mod_floor_i64(-8, 3), 1);
    ANSWERS(cellarcove_mod_floor_i64(INT64_MIN, -1), 0);
    REFUSES(cellarcove_mod_floor_i64(INT64_MIN, 0), CELLARCOVE_OUTSIDE);
    ANSWERS(cellarcove_mod_floor_u64(8, 3), 2);
    ANSWERS(cellarcove_next_multiple_of_i64(23, 8), 24);
    REFUSES(cellarcove_next_multiple_of_i64(INT64_MAX, 2), CELLARCOVE_NOT_FITTING);
    REFUSES(cellarcove_next_multiple_of_i64(INT64_MAX, 0), CELLARCOVE_OUTSIDE);
    ANSWERS(cellarcove_next_multiple_of_u64(23, 8), 24);
    REFUSES(cellarcove_next_multiple_of_u64(UINT64_MAX, 2), CELLARCOVE_NOT_FITTING);
    REFUSES(cellarcove_next_multiple_of_u64(UINT64_MAX, 0), CELLARCOVE_OUTSIDE);
    ANSWERS(cellarcove_prev_multiple_of_i64(-1, 8), -8);
    REFUSES(cellarcove_prev_multiple_of_i64(INT64_MIN, 3), CELLARCOVE_NOT_FITTING);
    REFUSES(cellarcove_prev_multiple_of_i64(INT64_MIN, 0), CELLARCOVE_OUTSIDE);
    ANSWERS(cellarcove_prev_multiple_of_u64(23, 8), 16);
    CHECK(cellarcove_is_multiple_of_i64(-9, 3) && !cellarcove_is_multiple_of_i64(1, 0));
    CHECK(cellarcove_is_multiple_of_u64(0, 0) && !cellarcove_is_multiple_of_u64(8, 3));
}

static void divisors(void) {
    ANSWERS(cellarcove_gcd_i64(-56, 42), 14);
    REFUSES(cellarcove_gcd_i64(INT64_MIN, 0), CELLARCOVE_NOT_FITTING);
    ANSWERS(cellarcove_gcd_u64(UINT64_MAX, 0), UINT64_MAX);
    ANSWERS(cellarcove_lcm_i64(-4, 6), 12);
    REFUSES(cellarcove_lcm_i64(INT64_MAX, 2), CELLARCOVE_NOT_FITTING);
    ANSWERS(cellarcove_lcm_u64(4, 6), 12);
    REFUSES(cellarcove_lcm_u64(UINT64_MAX, 2), CELLARCOVE_NOT_FITTING);
    cellarcove_i64_gcd_lcm both = cellarcove_gcd_lcm_i64(-10, 4);
    CHECK(both.status == CELLARCOVE_ANSWER && both.gcd == 2 && both.lcm == 20);
    both = cellarcove_gcd_lcm_i64(INT64_MAX, 2);
    CHECK(both.status == CELLARCOVE_NOT_FITTING && both.gcd == 0 && both.lcm == 0);
    cellarcove_u64_gcd_lcm pair = cellarcove_gcd_lcm_u64(UINT64_MAX, UINT64_MAX);
    CHECK(pair.status == CELLARCOVE_ANSWER && pair.gcd == UINT64_MAX && pair.lcm == UINT64_MAX);
    pair = cellarcove_gcd_lcm_u64(UINT64_MAX, 2);
    CHECK(pair.status == CELLARCOVE_NOT_FITTING && pair.gcd == 0 && pair.lcm == 0);
    cellarcove_i64_bezout e = cellarcove_extended_gcd_i64(240, 46);
    CHECK(e.status == CELLARCOVE_ANSWER && e.gcd == 2 && e.x == -9 && e.y == 47);
    e = cellarcove_extended_gcd_i64(INT64_MIN, INT64_MIN);
    CHECK(e.status == CELLARCOVE_NOT_FITTING && e.gcd == 0 && e.x == 0 && e.y == 0);
}

static void lists(void) {
    uint64_t some[] = {4, 6, 10}, large[] = {UINT64_MAX, 2, 0};
    ANSWERS(cellarcove_gcd_of_u64(some, 3), 2);
    ANSWERS(cellarcove_sum_of_u64(NULL, 0), 0);
    ANSWERS(cellarcove_sum_of_u64(large, 1), UINT64_MAX);
    ANSWERS(cellarcove_gcd_of_u64(large, 1), UINT64_MAX);
    ANSWERS(cellarcove_gcd_of_u64(NULL, 0), 0);
    ANSWERS(cellarcove_lcm_of_u64(some, 3), 60);
    REFUSES(cellarcove_lcm_of_u64(large, 2), CELLARCOVE_NOT_FITTING);
    /* the multiple of the first two does not fit */
    ANSWERS(cellarcove_lcm_of_u64(large, 3), 0);
    ANSWERS(cellarcove_lcm_of_u64(NULL, 0), 1);
    int64_t mixed[] = {-12, 18, 8}, lowest[] = {INT64_MIN, 0, 6};
    ANSWERS(cellarcove_gcd_of_i64(mixed, 3), 2);
    ANSWERS(cellarcove_sum_of_i64(NULL, 0), 0);
    ANSWERS(cellarcove_sum_of_i64(lowest, 1), INT64_MIN);
    REFUSES(cellarcove_gcd_of_i64(lowest, 2), CELLARCOVE_NOT_FITTING);
    ANSWERS(cellarcove_gcd_of_i64(lowest, 3), 2);
    ANSWERS(cellarcove_gcd_of_i64(NULL, 0), 0);
    ANSWERS(cellarcove_lcm_of_i64(mixed, 3), 72);
    ANSWERS(cellarcove_lcm_of_i64(lowest, 2), 0);
    REFUSES(cellarcove_lcm_of_i64(lowest, 1), CELLARCOVE_NOT_FITTING);
    ANSWERS(cellarcove_lcm_of_i64(NULL, 0), 1);
}

static void powers(void) {
    CHECK(cellarcove_is_square_i64(144) && !cellarcove_is_square_i64(145) && !cellarcove_is_square_i64(-144));
    CHECK(cellarcove_is_square_i64(0) && !cellarcove_is_square_i64(INT64_MIN));
    CHECK(cellarcove_is_square_u64(UINT64_C(18446744065119617025)) && !cellarcove_is_square_u64(UINT64_MAX));
    CHECK(cellarcove_is_power_i64(-243, 5) && !cellarcove_is_power_i64(244, 5) && !cellarcove_is_power_i64(-16, 2));
    CHECK(cellarcove_is_power_i64(1, 0) && !cellarcove_is_power_i64(0, 0) && cellarcove_is_power_i64(INT64_MIN, 63));
    CHECK(cellarcove_is_power_u64(UINT64_C(1) << 63, 63) && !cellarcove_is_power_u64(2, UINT32_MAX));
    CHECK(cellarcove_is_power_u64(1, 0) && !cellarcove_is_power_u64(2, 0));
    CHECK(cellarcove_is_perfect_power_u64(128) && !cellarcove_is_perfect_power_u64(72));
    CHECK(cellarcove_is_perfect_power_u64(0) && cellarcove_is_perfect_power_u64(1) && !cellarcove_is_perfect_power_u64(2));
}

static void roots(void) {
    CHECK(cellarcove_average_floor_i64(-2, -5) == -4 && cellarcove_average_ceil_i64(-2, -5) == -3);
    CHECK(cellarcove_average_floor_u64(UINT64_MAX, UINT64_MAX) == UINT64_MAX);
    CHECK(cellarcove_average_ceil_u64(3, 10) == 7);
    ANSWERS(cellarcove_sqrt_i64(99), 9);
    REFUSES(cellarcove_sqrt_i64(-1), CELLARCOVE_OUTSIDE);
    ANSWERS(cellarcove_sqrt_u64(UINT64_MAX), UINT32_MAX);
    CHECK(cellarcove_cbrt_i64(-9) == -2 && cellarcove_cbrt_u64(UINT64_MAX) == 2642245);
    ANSWERS(cellarcove_nth_root_i64(-9, 3), -2);
    REFUSES(cellarcove_nth_root_i64(-9, 2), CELLARCOVE_OUTSIDE);
    ANSWERS(cellarcove_nth_root_u64(1024, 10), 2);
    REFUSES(cellarcove_nth_root_u64(1024, 0), CELLARCOVE_OUTSIDE);
}

/* A number has this square root, and what is left, at each type that it fits. */
static bool has_root(uint64_t x, uint64_t root) {
    uint64_t rest = x - root * root;
    cellarcove_u64_root parts = cellarcove_sqrt_rem_u64(x);
    if (cellarcove_sqrt_u64(x).value != root || parts.root != root || parts.rest != rest) {
        return false;
    }
    cellarcove_i64_root of_signed = cellarcove_sqrt_rem_i64((int64_t)x);
    return x > INT64_MAX || (cellarcove_sqrt_i64((int64_t)x).value == (int64_t)root && of_signed.root == (int64_t)root && of_signed.rest == (int64_t)rest);
}

/* The first roots, the last ones and random ones, each of its square, of the last number before the next square, and of a number
   between them. */
static void square_roots(void) {
    uint64_t bits = 1;
    for (uint64_t i = 0; i < 30000; i++) {
        bits = bits * UINT64_C(6364136223846793005) + UINT64_C(1442695040888963407);
        uint64_t root = i < 10000 ? i : i < 20000 ? UINT32_MAX - (i - 10000) : bits >> 32 >> i % 32, square = root * root;
        CHECK(has_root(square, root) && has_root(square + 2 * root, root) && has_root(square + bits % (2 * root + 1), root));
    }
}

/* By Pascal's rule, all binomial coefficients that a table of the library has, and those beside it. */
static void small_coefficients(void) {
    uint64_t row[70] = {1}; /* that of n, with zeros after it */
    for (uint64_t n = 0; n < 68; n++) {
        for (uint64_t k = n; k > 0; k--) {
            row[k] += row[k - 1];
        }
        for (uint64_t k = 0; k < 70; k++) {
            ANSWERS(cellarcove_binomial_u64(n, k), row[k]);
            if (row[k] <= INT64_MAX) {
                ANSWERS(cellarcove_binomial_i64((int64_t)n, (int64_t)k), (int64_t)row[k]);
            } else {
                REFUSES(cellarcove_binomial_i64((int64_t)n, (int64_t)k), CELLARCOVE_NOT_FITTING);
            }
        }
    }
}

static void coefficients(void) {
    uint64_t counts[] = {2, 1, 2}, many[] = {34, 34};
    ANSWERS(cellarcove_binomial_i64(11, 3), 165);
    REFUSES(cellarcove_binomial_i64(-1, 3), CELLARCOVE_OUTSIDE);
    REFUSES(cellarcove_binomial_i64(3, -1), CELLARCOVE_OUTSIDE);
    REFUSES(cellarcove_binomial_i64(67, 33), CELLARCOVE_NOT_FITTING);
    ANSWERS(cellarcove_binomial_u64(67, 33), UINT64_C(14226520737620288370));
    REFUSES(cellarcove_binomial_u64(68, 34), CELLARCOVE_NOT_FITTING);
    ANSWERS(cellarcove_multinomial_u64(counts, 3), 30);
    REFUSES(cellarcove_multinomial_u64(many, 2), CELLARCOVE_NOT_FITTING);
    ANSWERS(cellarcove_multinomial_u64(counts, 0), 1);
    ANSWERS(cellarcove_multinomial_u64(NULL, 0), 1);
    uint64_t choice[] = {0, 2, 3}, equal[] = {0, 2, 2}, wide[] = {0, UINT64_C(10000000000)};
    ANSWERS(cellarcove_rank_u64(choice, 3, 5), 2);
    REFUSES(cellarcove_rank_u64(choice, 3, 3), CELLARCOVE_OUTSIDE);
    REFUSES(cellarcove_rank_u64(equal, 3, 5), CELLARCOVE_OUTSIDE);
    REFUSES(cellarcove_rank_u64(wide, 2, UINT64_MAX), CELLARCOVE_NOT_FITTING);
    ANSWERS(cellarcove_rank_u64(NULL, 0, 0), 0);
    uint64_t written[] = {7, 7, 7, 7};
    CHECK(cellarcove_choice_of_rank_u64(2, 5, written, 3) == CELLARCOVE_ANSWER);
    CHECK(written[0] == 0 && written[1] == 2 && written[2] == 3 && written[3] == 7);
    CHECK(cellarcove_choice_of_rank_u64(10, 5, written, 3) == CELLARCOVE_OUTSIDE);
    CHECK(written[0] == 0 && written[1] == 2 && written[2] == 3 && written[3] == 7);
    CHECK(cellarcove_choice_of_rank_u64(UINT64_MAX, UINT64_MAX, written, 2) == CELLARCOVE_ANSWER);
    ANSWERS(cellarcove_rank_u64(written, 2, UINT64_MAX), UINT64_MAX);
    CHECK(cellarcove_choice_of_rank_u64(0, 0, NULL, 0) == CELLARCOVE_ANSWER);
    CHECK(cellarcove_choice_of_rank_u64(1, 5, NULL, 0) == CELLARCOVE_OUTSIDE);
}

static void residues(void) {
    ANSWERS(cellarcove_sum_modulo_i64(INT64_MAX, INT64_MAX, 10), 4);
    ANSWERS(cellarcove_sum_modulo_u64(5, 4, 7), 2);
    REFUSES(cellarcove_sum_modulo_i64(1, 1, -7), CELLARCOVE_BAD_MODULUS);
    REFUSES(cellarcove_sum_modulo_u64(1, 1, 0), CELLARCOVE_BAD_MODULUS);
    ANSWERS(cellarcove_difference_modulo_i64(2, 5, 7), 4);
    ANSWERS(cellarcove_difference_modulo_u64(2, 5, 7), 4);
    ANSWERS(cellarcove_product_modulo_i64(-4, 5, 7), 1);
    ANSWERS(cellarcove_product_modulo_u64(4, 5, 7), 6);
    ANSWERS(cellarcove_power_modulo_i64(-3, 3, 7), 1);
    ANSWERS(cellarcove_power_modulo_u64(3, 4, 7), 4);
    REFUSES(cellarcove_power_modulo_u64(3, 4, 0), CELLARCOVE_BAD_MODULUS);
    ANSWERS(cellarcove_inverse_modulo_i64(-4, 7), 5);
    REFUSES(cellarcove_inverse_modulo_i64(4, 6), CELLARCOVE_NO_SOLUTION);
    REFUSES(cellarcove_inverse_modulo_i64(4, -6), CELLARCOVE_BAD_MODULUS);
    ANSWERS(cellarcove_inverse_modulo_u64(3, 7), 5);
}

static void several_congruences(void) {
    cellarcove_i64_congruence some[] = {{1, 4}, {3, 6}, {0, 7}, {2, 6}, {1, 0}, {1, -4}}, many[65];
    ANSWERS(cellarcove_next_common_solution_of_i64(10, some, 3), 21);
    ANSWERS(cellarcove_next_common_solution_of_i64(-100, some, 3), -63);
    ANSWERS(cellarcove_next_common_solution_of_i64(-5, NULL, 0), -5);
    REFUSES(cellarcove_next_common_solution_of_i64(10, some, 4), CELLARCOVE_NO_SOLUTION);
    REFUSES(cellarcove_next_common_solution_of_i64(10, some, 5), CELLARCOVE_BAD_MODULUS);
    REFUSES(cellarcove_next_common_solution_of_i64(10, some + 5, 1), CELLARCOVE_BAD_MODULUS);
    REFUSES(cellarcove_next_common_solution_of_i64(INT64_MAX, some, 3), CELLARCOVE_NOT_FITTING);
    for (int k = 0; k < 65; k++) {
        many[k] = some[0];
    }
    ANSWERS(cellarcove_next_common_solution_of_i64(2, many, 64), 5);
    REFUSES(cellarcove_next_common_solution_of_i64(2, many, 65), CELLARCOVE_OUTSIDE);
    /* no product of the moduli fits */
    cellarcove_u64_congruence wide[] = {{5, UINT64_MAX}, {5, UINT64_MAX - 1}, {5, UINT64_MAX - 2}, {0, 0}};
    ANSWERS(cellarcove_next_common_solution_of_u64(0, wide, 3), 5);
    REFUSES(cellarcove_next_common_solution_of_u64(6, wide, 3), CELLARCOVE_NOT_FITTING);
    REFUSES(cellarcove_next_common_solution_of_u64(6, wide, 4), CELLARCOVE_BAD_MODULUS);
    ANSWERS(cellarcove_next_common_solution_of_u64(UINT64_MAX, NULL, 0), UINT64_MAX);
}

static void congruences(void) {
    cellarcove_i64_solutions s = cellarcove_chinese_remainder_i64(1, 4, 3, 6);
    CHECK(s.status == CELLARCOVE_ANSWER && s.first == 9 && s.step == 12);
    s = cellarcove_chinese_remainder_i64(1, 4, 2, 6);
    CHECK(s.status == CELLARCOVE_NO_SOLUTION && s.first == 0 && s.step == 0);
    s = cellarcove_chinese_remainder_i64(1, INT64_MAX, 0, INT64_MAX - 1);
    CHECK(s.status == CELLARCOVE_NOT_FITTING && s.first == 0 && s.step == 0);
    /* there is no solution, and the step would not fit */
    s = cellarcove_chinese_remainder_i64(1, INT64_C(1) << 62, 2, INT64_MAX - 1);
    CHECK(s.status == CELLARCOVE_NO_SOLUTION && s.first == 0 && s.step == 0);
    s = cellarcove_chinese_remainder_i64(1, 4, 3, 0);
    CHECK(s.status == CELLARCOVE_BAD_MODULUS && s.first == 0 && s.step == 0);
    cellarcove_u64_solutions t = cellarcove_chinese_remainder_u64(1, 4, 3, 6);
    CHECK(t.status == CELLARCOVE_ANSWER && t.first == 9 && t.step == 12);
    t = cellarcove_chinese_remainder_u64(1, UINT64_C(1) << 63, 2, UINT64_MAX - 1);
    CHECK(t.status == CELLARCOVE_NO_SOLUTION && t.first == 0 && t.step == 0);
    t = cellarcove_chinese_remainder_u64(1, UINT64_MAX, 0, UINT64_MAX - 1);
    CHECK(t.status == CELLARCOVE_NOT_FITTING && t.first == 0 && t.step == 0);
    s = cellarcove_solutions_i64(6, 4, 10);
    CHECK(s.status == CELLARCOVE_ANSWER && s.first == 4 && s.step == 5);
    s = cellarcove_solutions_i64(6, 3, 10);
    CHECK(s.status == CELLARCOVE_NO_SOLUTION && s.first == 0 && s.step == 0);
    s = cellarcove_solutions_i64(6, 4, -10);
    CHECK(s.status == CELLARCOVE_BAD_MODULUS && s.first == 0 && s.step == 0);
    t = cellarcove_solutions_u64(6, 4, 10);
    CHECK(t.status == CELLARCOVE_ANSWER && t.first == 4 && t.step == 5);
    ANSWERS(cellarcove_quotient_modulo_i64(2, 3, 7), 3);
    REFUSES(cellarcove_quotient_modulo_i64(2, 4, 6), CELLARCOVE_NO_SOLUTION);
    REFUSES(cellarcove_quotient_modulo_i64(2, 4, 0), CELLARCOVE_BAD_MODULUS);
    ANSWERS(cellarcove_quotient_modulo_u64(2, 3, 7), 3);
    ANSWERS(cellarcove_previous_congruent_i64(-10, 1, 4), -11);
    REFUSES(cellarcove_previous_congruent_i64(INT64_MIN, 1, 4), CELLARCOVE_NOT_FITTING);
    REFUSES(cellarcove_previous_congruent_i64(0, 1, 0), CELLARCOVE_BAD_MODULUS);
    ANSWERS(cellarcove_previous_congruent_u64(10, 1, 4), 9);
    REFUSES(cellarcove_previous_congruent_u64(0, 1, 4), CELLARCOVE_NOT_FITTING);
    ANSWERS(cellarcove_count_congruent_i64(1, 10, 1, 4), 3);
    REFUSES(cellarcove_count_congruent_i64(INT64_MIN, INT64_MAX, 0, 1), CELLARCOVE_NOT_FITTING);
    REFUSES(cellarcove_count_congruent_i64(1, 10, 1, -4), CELLARCOVE_BAD_MODULUS);
    ANSWERS(cellarcove_count_congruent_u64(10, 1, 1, 4), 0);
    REFUSES(cellarcove_count_congruent_u64(0, UINT64_MAX, 0, 1), CELLARCOVE_NOT_FITTING);
    ANSWERS(cellarcove_next_congruent_i64(-10, 1, 4), -7);
    REFUSES(cellarcove_next_congruent_i64(INT64_MAX, 1, 4), CELLARCOVE_NOT_FITTING);
    REFUSES(cellarcove_next_congruent_i64(10, 1, 0), CELLARCOVE_BAD_MODULUS);
    ANSWERS(cellarcove_next_congruent_u64(10, 1, 4), 13);
    ANSWERS(cellarcove_next_common_solution_i64(10, 1, 4, 3, 6), 21);
    REFUSES(cellarcove_next_common_solution_i64(10, 1, 4, 2, 6), CELLARCOVE_NO_SOLUTION);
    REFUSES(cellarcove_next_common_solution_i64(10, 1, 4, 3, -6), CELLARCOVE_BAD_MODULUS);
    REFUSES(cellarcove_next_common_solution_i64(INT64_MAX, 1, 4, 3, 6), CELLARCOVE_NOT_FITTING);
    ANSWERS(cellarcove_next_common_solution_u64(10, 1, 4, 3, 6), 21);
}

static cellarcove_fraction fraction(int64_t num, int64_t den) {
    cellarcove_fraction f = {num, den};
    return f;
}

static bool is_fraction(cellarcove_fraction_answer answer, int64_t num, int64_t den) {
    return answer.status == CELLARCOVE_ANSWER && answer.value.num == num && answer.value.den == den;
}

static bool is_refused(cellarcove_fraction_answer answer, uint32_t status) {
    return answer.status == status && answer.value.num == 0 && answer.value.den == 0;
}

static void fractions(void) {
    cellarcove_fraction half = {1, 2}, third = {-1, -3}, none = {1, 0}, zero = {0, 5}, large = {INT64_MIN, -1};
    CHECK(is_fraction(cellarcove_fraction_new(6, -4), -3, 2));
    CHECK(is_refused(cellarcove_fraction_new(1, 0), CELLARCOVE_ZERO_DENOMINATOR));
    CHECK(is_refused(cellarcove_fraction_new(INT64_MIN, -1), CELLARCOVE_NOT_FITTING));
    CHECK(is_fraction(cellarcove_fraction_add(half, third), 5, 6));
    CHECK(is_refused(cellarcove_fraction_add(half, none), CELLARCOVE_ZERO_DENOMINATOR));
    CHECK(is_refused(cellarcove_fraction_add(large, half), CELLARCOVE_NOT_FITTING));
    CHECK(is_fraction(cellarcove_fraction_sub(half, third), 1, 6));
    CHECK(is_fraction(cellarcove_fraction_mul(half, third), 1, 6));
    CHECK(is_fraction(cellarcove_fraction_div(half, third), 3, 2));
    CHECK(is_refused(cellarcove_fraction_div(half, zero), CELLARCOVE_ZERO_DENOMINATOR));
    CHECK(is_fraction(cellarcove_fraction_limit_denominator(fraction(3, 10), 5), 1, 3));
    CHECK(is_refused(cellarcove_fraction_limit_denominator(half, 0), CELLARCOVE_OUTSIDE));
    cellarcove_order_answer order = cellarcove_fraction_cmp(half, third);
    CHECK(order.status == CELLARCOVE_ANSWER && order.order == 1);
    order = cellarcove_fraction_cmp(third, half);
    CHECK(order.status == CELLARCOVE_ANSWER && order.order == -1);
    order = cellarcove_fraction_cmp(half, none);
    CHECK(order.status == CELLARCOVE_ZERO_DENOMINATOR && order.order == 0);
    ANSWERS(cellarcove_fraction_floor(fraction(-3, 2)), -2);
    REFUSES(cellarcove_fraction_floor(none), CELLARCOVE_ZERO_DENOMINATOR);
    ANSWERS(cellarcove_fraction_floor_times(fraction(2, 3), 100), 66);
    REFUSES(cellarcove_fraction_floor_times(fraction(3, 2), INT64_MAX), CELLARCOVE_NOT_FITTING);
    ANSWERS(cellarcove_fraction_ceil(fraction(-3, 2)), -1);
    REFUSES(cellarcove_fraction_ceil(none), CELLARCOVE_ZERO_DENOMINATOR);
    ANSWERS(cellarcove_fraction_ceil_times(fraction(2, 3), 100), 67);
    REFUSES(cellarcove_fraction_ceil_times(fraction(3, 2), INT64_MAX), CELLARCOVE_NOT_FITTING);
    ANSWERS(cellarcove_fraction_round_times(fraction(1, 2), -3), -2);
    REFUSES(cellarcove_fraction_round_times(large, 1), CELLARCOVE_NOT_FITTING);
    ANSWERS(cellarcove_fraction_round(fraction(-3, 2)), -2);
    REFUSES(cellarcove_fraction_round(large), CELLARCOVE_NOT_FITTING);
}

static cellarcove_date date(int64_t year, uint8_t month, uint8_t day_of_month) {
    cellarcove_date d = {year, month, day_of_month};
    return d;
}

static bool is_date(cellarcove_date d, int64_t year, int month, int day_of_month) {
    return d.year == year && d.month == month && d.day_of_month == day_of_month;
}

static bool is_answer(cellarcove_date_answer found, uint32_t status, int64_t year, int month, int day_of_month) {
    return found.status == status && is_date(found.date, year, month, day_of_month);
}

static void dates(void) {
    cellarcove_date end = {2000, 1, 31}, none = {1900, 2, 29}, far = {INT64_MAX, 12, 31};
    CHECK(is_date(cellarcove_date_from_day(-1), 1969, 12, 31));
    ANSWERS(cellarcove_day_from_date(date(2000, 2, 29)), 11016);
    REFUSES(cellarcove_day_from_date(none), CELLARCOVE_NO_DATE);
    REFUSES(cellarcove_day_from_date(far), CELLARCOVE_NOT_FITTING);
    CHECK(cellarcove_weekday(0) == 4 && cellarcove_weekday(3) == 7 && cellarcove_weekday(4) == 1);
    CHECK(cellarcove_weekday(INT64_MIN) == 3);
    CHECK(is_answer(cellarcove_plus_months(end, 1), CELLARCOVE_ANSWER, 2000, 2, 29));
    CHECK(is_answer(cellarcove_plus_months(none, 1), CELLARCOVE_NO_DATE, 0, 0, 0));
    CHECK(is_answer(cellarcove_plus_months(far, 1), CELLARCOVE_NOT_FITTING, 0, 0, 0));
    ANSWERS(cellarcove_months_between(end, date(2000, 2, 29)), 1);
    REFUSES(cellarcove_months_between(end, none), CELLARCOVE_NO_DATE);
    REFUSES(cellarcove_months_between(end, far), CELLARCOVE_NOT_FITTING);
    cellarcove_iso_week_answer week = cellarcove_iso_week(date(2005, 1, 1));
    CHECK(week.status == CELLARCOVE_ANSWER && week.week == 53 && week.year == 2004);
    week = cellarcove_iso_week(none);
    CHECK(week.status == CELLARCOVE_NO_DATE && week.week == 0 && week.year == 0);
    CHECK(is_answer(cellarcove_date_from_iso_week(2009, 53, 7), CELLARCOVE_ANSWER, 2010, 1, 3));
    CHECK(is_answer(cellarcove_date_from_iso_week(2010, 53, 7), CELLARCOVE_NO_DATE, 0, 0, 0));
    CHECK(is_answer(cellarcove_date_from_iso_week(2009, 0, 7), CELLARCOVE_NO_DATE, 0, 0, 0));
    CHECK(is_answer(cellarcove_date_from_iso_week(2009, 53, 8), CELLARCOVE_OUTSIDE, 0, 0, 0));
    CHECK(is_answer(cellarcove_date_from_iso_week(2009, 99, 0), CELLARCOVE_OUTSIDE, 0, 0, 0));
    CHECK(is_date(cellarcove_easter(2024), 2024, 3, 31));
}

static void days_and_years(void) {
    cellarcove_date none = {1900, 2, 29}, far = {INT64_MAX, 12, 31};
    CHECK(is_answer(cellarcove_plus_days(date(2000, 3, 1), -1), CELLARCOVE_ANSWER, 2000, 2, 29));
    CHECK(is_answer(cellarcove_plus_days(far, 1), CELLARCOVE_NOT_FITTING, 0, 0, 0));
    CHECK(is_answer(cellarcove_plus_days(none, 1), CELLARCOVE_NO_DATE, 0, 0, 0));
    CHECK(is_answer(cellarcove_minus_days(date(2000, 3, 1), 1), CELLARCOVE_ANSWER, 2000, 2, 29));
    CHECK(is_answer(cellarcove_minus_days(far, -1), CELLARCOVE_NOT_FITTING, 0, 0, 0));
    CHECK(is_answer(cellarcove_minus_days(none, 1), CELLARCOVE_NO_DATE, 0, 0, 0));
    ANSWERS(cellarcove_days_between(date(2000, 3, 1), date(2000, 2, 28)), -2);
    REFUSES(cellarcove_days_between(date(2000, 3, 1), far), CELLARCOVE_NOT_FITTING);
    REFUSES(cellarcove_days_between(none, far), CELLARCOVE_NO_DATE);
    CHECK(is_answer(cellarcove_nth_weekday_of_month(2026, 11, 4, 4), CELLARCOVE_ANSWER, 2026, 11, 26));
    CHECK(is_answer(cellarcove_nth_weekday_of_month(2026, 11, 4, 5), CELLARCOVE_NO_DATE, 0, 0, 0));
    CHECK(is_answer(cellarcove_nth_weekday_of_month(2026, 13, 8, 1), CELLARCOVE_OUTSIDE, 0, 0, 0));
    CHECK(is_answer(cellarcove_last_weekday_of_month(2026, 10, 5), CELLARCOVE_ANSWER, 2026, 10, 30));
    CHECK(is_answer(cellarcove_last_weekday_of_month(2026, 13, 5), CELLARCOVE_NO_DATE, 0, 0, 0));
    CHECK(is_answer(cellarcove_last_weekday_of_month(2026, 13, 0), CELLARCOVE_OUTSIDE, 0, 0, 0));
    CHECK(cellarcove_is_leap_year(2000) && cellarcove_is_leap_year(-4) && !cellarcove_is_leap_year(1900));
    CHECK(cellarcove_weeks_in_year(2020) == 53 && cellarcove_weeks_in_year(2021) == 52);
    ANSWERS(cellarcove_days_in_month(1900, 2), 28);
    REFUSES(cellarcove_days_in_month(1900, 0), CELLARCOVE_NO_DATE);
    ANSWERS(cellarcove_day_of_year(date(2000, 12, 31)), 366);
    REFUSES(cellarcove_day_of_year(none), CELLARCOVE_NO_DATE);
}

/* The week of the last day of all, a Thursday, and that of the first day but one, a Monday. */
static void last_and_first_week(void) {
    for (uint8_t weekday = 1; weekday <= 7; weekday++) {
        bool fits = weekday <= 4;
        cellarcove_date_answer day = cellarcove_date_from_iso_week(INT64_MAX, 53, weekday);
        CHECK(day.status == (fits ? CELLARCOVE_ANSWER : CELLARCOVE_NOT_FITTING));
        CHECK(fits ? is_date(day.date, INT64_MAX, 12, 27 + weekday) : is_date(day.date, 0, 0, 0));
        CHECK(is_answer(cellarcove_date_from_iso_week(INT64_MAX, 54, weekday), CELLARCOVE_NO_DATE, 0, 0, 0));
        CHECK(is_answer(cellarcove_date_from_iso_week(INT64_MIN, 1, weekday), CELLARCOVE_ANSWER, INT64_MIN, 1, 1 + weekday));
        CHECK(is_answer(cellarcove_date_from_iso_week(INT64_MIN, 0, weekday), CELLARCOVE_NO_DATE, 0, 0, 0));
    }
}

static void rounded_quotients(void) {
    ANSWERS(cellarcove_product_div_round_i64(INT64_MAX, 5, 10), INT64_MAX / 2 + 1);
    ANSWERS(cellarcove_product_div_round_u64(UINT64_MAX, UINT64_MAX, UINT64_MAX), UINT64_MAX);
    ANSWERS(cellarcove_product_div_round_even_i64(-5, 3, 6), -2);
    ANSWERS(cellarcove_product_div_round_even_u64(7, 3, 6), 4);
    REFUSES(cellarcove_product_div_round_i64(INT64_MIN, -1, 1), CELLARCOVE_NOT_FITTING);
    REFUSES(cellarcove_product_div_round_u64(UINT64_MAX, 3, 2), CELLARCOVE_NOT_FITTING);
    REFUSES(cellarcove_product_div_round_even_i64(1, 1, 0), CELLARCOVE_OUTSIDE);
    REFUSES(cellarcove_product_div_round_even_u64(1, 1, 0), CELLARCOVE_OUTSIDE);
    ANSWERS(cellarcove_div_round_i64(-5, 2), -3);
    ANSWERS(cellarcove_div_round_u64(5, 2), 3);
    ANSWERS(cellarcove_div_round_even_i64(-5, 2), -2);
    ANSWERS(cellarcove_div_round_even_u64(7, 2), 4);
    REFUSES(cellarcove_div_round_i64(INT64_MIN, -1), CELLARCOVE_NOT_FITTING);
    REFUSES(cellarcove_div_round_u64(1, 0), CELLARCOVE_OUTSIDE);
    REFUSES(cellarcove_div_round_even_i64(INT64_MIN, -1), CELLARCOVE_NOT_FITTING);
    REFUSES(cellarcove_div_round_even_u64(1, 0), CELLARCOVE_OUTSIDE);
}

static void divided_by_one(void) {
    const int64_t numbers[5] = {-8, 8, 0, INT64_MIN, INT64_MAX};
    const uint64_t counts[3] = {9, UINT64_MAX, 0};
    int64_t found[5] = {7, 7, 7, 7, 7};
    uint64_t naturals[3] = {7, 7, 7};
    CHECK(cellarcove_div_floor_each_i64(numbers, 5, 0, found, 5) == CELLARCOVE_OUTSIDE && found[0] == 7 && found[4] == 7);
    CHECK(cellarcove_div_floor_each_i64(numbers, 5, 3, found, 4) == CELLARCOVE_OUTSIDE && found[0] == 7);
    CHECK(cellarcove_div_floor_each_i64(numbers, 5, 3, found, 5) == CELLARCOVE_ANSWER && found[0] == -3 && found[1] == 2 && found[2] == 0);
    CHECK(found[3] == -INT64_C(3074457345618258603) && found[4] == INT64_C(3074457345618258602));
    CHECK(cellarcove_div_floor_each_i64(numbers, 5, 1, found, 5) == CELLARCOVE_ANSWER && found[0] == -8 && found[3] == INT64_MIN && found[4] == INT64_MAX);
    CHECK(cellarcove_div_floor_each_i64(numbers, 5, INT64_MAX, found, 5) == CELLARCOVE_ANSWER && found[0] == -1 && found[3] == -2 && found[4] == 1);
    CHECK(cellarcove_div_floor_each_i64(numbers, 5, -3, found, 5) == CELLARCOVE_ANSWER && found[0] == 2 && found[1] == -3 && found[2] == 0);
    CHECK(found[3] == INT64_C(3074457345618258602) && found[4] == -INT64_C(3074457345618258603));
    CHECK(cellarcove_div_floor_each_i64(numbers, 5, INT64_MIN, found, 5) == CELLARCOVE_ANSWER && found[0] == 0 && found[1] == -1 && found[3] == 1 && found[4] == -1);
    CHECK(cellarcove_div_floor_each_i64(numbers, 5, -1, found, 5) == CELLARCOVE_NOT_FITTING && found[0] == 0 && found[3] == 1);
    CHECK(cellarcove_div_floor_each_i64(numbers, 3, -1, found, 3) == CELLARCOVE_ANSWER && found[0] == 8 && found[1] == -8 && found[2] == 0);
    CHECK(cellarcove_div_floor_each_i64(numbers, 5, -1, found, 4) == CELLARCOVE_OUTSIDE && found[0] == 8);
    CHECK(cellarcove_div_floor_each_u64(counts, 3, 0, naturals, 3) == CELLARCOVE_OUTSIDE && naturals[0] == 7);
    CHECK(cellarcove_div_floor_each_u64(counts, 3, 3, naturals, 2) == CELLARCOVE_OUTSIDE && naturals[0] == 7);
    CHECK(cellarcove_div_floor_each_u64(counts, 3, 3, naturals, 3) == CELLARCOVE_ANSWER && naturals[0] == 3 && naturals[1] == UINT64_MAX / 3 && naturals[2] == 0);
    CHECK(cellarcove_div_floor_each_u64(counts, 3, UINT64_MAX, naturals, 3) == CELLARCOVE_ANSWER && naturals[0] == 0 && naturals[1] == 1);
    CHECK(cellarcove_div_floor_each_u64(NULL, 0, 1, NULL, 0) == CELLARCOVE_ANSWER);
}

static void sums_of_arrays(void) {
    const int64_t a[3] = {2, -8, INT64_MAX}, b[3] = {3, INT64_MIN + 8, INT64_MIN}, other[3] = {3, 8, 1};
    const uint64_t x[3] = {2, 8, UINT64_MAX}, y[3] = {3, 5, 0}, z[3] = {3, 5, 1};
    int64_t sums[3] = {7, 7, 7};
    uint64_t naturals[3] = {7, 7, 7};
    CHECK(cellarcove_checked_sum_each_i64(a, 3, b, 2, sums, 3) == CELLARCOVE_OUTSIDE && sums[0] == 7);
    CHECK(cellarcove_checked_sum_each_i64(a, 3, b, 3, sums, 2) == CELLARCOVE_OUTSIDE && sums[0] == 7);
    CHECK(cellarcove_checked_sum_each_i64(a, 3, other, 3, sums, 3) == CELLARCOVE_NOT_FITTING && sums[0] == 7 && sums[2] == 7);
    CHECK(cellarcove_checked_sum_each_i64(a, 3, b, 3, sums, 3) == CELLARCOVE_ANSWER && sums[0] == 5 && sums[1] == INT64_MIN && sums[2] == -1);
    CHECK(cellarcove_checked_sum_each_i64(NULL, 0, NULL, 0, NULL, 0) == CELLARCOVE_ANSWER);
    CHECK(cellarcove_checked_sum_each_u64(x, 3, y, 2, naturals, 3) == CELLARCOVE_OUTSIDE && naturals[0] == 7);
    CHECK(cellarcove_checked_sum_each_u64(x, 3, y, 3, naturals, 2) == CELLARCOVE_OUTSIDE && naturals[0] == 7);
    CHECK(cellarcove_checked_sum_each_u64(x, 3, z, 3, naturals, 3) == CELLARCOVE_NOT_FITTING && naturals[0] == 7 && naturals[2] == 7);
    CHECK(cellarcove_checked_sum_each_u64(x, 3, y, 3, naturals, 3) == CELLARCOVE_ANSWER && naturals[0] == 5 && naturals[1] == 13 && naturals[2] == UINT64_MAX);
    CHECK(cellarcove_checked_sum_each_u64(NULL, 0, NULL, 0, NULL, 0) == CELLARCOVE_ANSWER);
}

static void shares(void) {
    const uint64_t weights[3] = {1, 1, 1}, zeros[3] = {0, 0, 0}, unequal[3] = {1, 1, 98};
    int64_t parts[3] = {7, 7, 7};
    uint64_t counts[3] = {7, 7, 7};
    CHECK(cellarcove_shares_i64(-100, zeros, 3, parts, 3) == CELLARCOVE_OUTSIDE && parts[0] == 7 && parts[2] == 7);
    CHECK(cellarcove_shares_i64(-100, weights, 3, parts, 2) == CELLARCOVE_OUTSIDE && parts[0] == 7 && parts[2] == 7);
    CHECK(cellarcove_shares_i64(-100, weights, 3, parts, 3) == CELLARCOVE_ANSWER && parts[0] == -34 && parts[1] == -33 && parts[2] == -33);
    CHECK(cellarcove_shares_u64(100, weights, 2, counts, 3) == CELLARCOVE_OUTSIDE && counts[0] == 7);
    CHECK(cellarcove_shares_u64(2, unequal, 3, counts, 3) == CELLARCOVE_ANSWER && counts[0] == 1 && counts[1] == 0 && counts[2] == 1);
    CHECK(cellarcove_shares_by_largest_remainder_u64(2, zeros, 3, counts, 3) == CELLARCOVE_OUTSIDE && counts[0] == 1);
    CHECK(cellarcove_shares_by_largest_remainder_u64(2, unequal, 3, counts, 3) == CELLARCOVE_ANSWER && counts[0] == 0 && counts[2] == 2);
    CHECK(cellarcove_shares_by_largest_remainder_i64(-2, zeros, 3, parts, 3) == CELLARCOVE_OUTSIDE && parts[0] == -34);
    CHECK(cellarcove_shares_by_largest_remainder_i64(-2, unequal, 3, parts, 3) == CELLARCOVE_ANSWER && parts[0] == 0 && parts[2] == -2);
    CHECK(cellarcove_shares_u64(0, NULL, 0, NULL, 0) == CELLARCOVE_OUTSIDE);
}

static void numbers_of_pages(void) {
    ANSWERS(cellarcove_pages_i64(-9, 4), -2);
    ANSWERS(cellarcove_pages_u64(10, 4), 3);
    REFUSES(cellarcove_pages_i64(1, -1), CELLARCOVE_OUTSIDE);
    cellarcove_i64_place place = cellarcove_place_of_i64(-1, 4);
    CHECK(place.status == CELLARCOVE_ANSWER && place.page == -1 && place.place == 3);
    CHECK(cellarcove_place_of_u64(1, 0).status == CELLARCOVE_OUTSIDE);
    ANSWERS(cellarcove_item_at_i64(-1, 3, 4), -1);
    ANSWERS(cellarcove_item_at_u64(2, 2, 4), 10);
    REFUSES(cellarcove_item_at_i64(0, -1, 4), CELLARCOVE_OUTSIDE);
    REFUSES(cellarcove_item_at_u64(UINT64_MAX, 0, 2), CELLARCOVE_NOT_FITTING);
    cellarcove_i64_range range = cellarcove_range_of_page_i64(2, 4, 10);
    CHECK(range.status == CELLARCOVE_ANSWER && range.first == 8 && range.end == 10);
    CHECK(cellarcove_range_of_page_i64(0, 4, -1).status == CELLARCOVE_OUTSIDE && cellarcove_range_of_page_u64(0, 0, 1).status == CELLARCOVE_OUTSIDE);
    cellarcove_u64_range part = cellarcove_range_of_part_u64(1, 3, 10);
    CHECK(part.status == CELLARCOVE_ANSWER && part.first == 4 && part.end == 7);
    CHECK(cellarcove_range_of_part_i64(3, 3, 10).status == CELLARCOVE_OUTSIDE && cellarcove_range_of_part_u64(3, 3, 10).status == CELLARCOVE_OUTSIDE);
    ANSWERS(cellarcove_align_up_i64(-13, 8), -8);
    REFUSES(cellarcove_align_up_u64(UINT64_MAX, 2), CELLARCOVE_NOT_FITTING);
    REFUSES(cellarcove_align_up_i64(1, 0), CELLARCOVE_OUTSIDE);
    ANSWERS(cellarcove_padding_i64(-13, 8), 5);
    REFUSES(cellarcove_padding_u64(1, 0), CELLARCOVE_OUTSIDE);
}

static void counts_and_times(void) {
    cellarcove_u64_root root = cellarcove_sqrt_rem_u64(99);
    CHECK(root.status == CELLARCOVE_ANSWER && root.root == 9 && root.rest == 18);
    CHECK(cellarcove_sqrt_rem_i64(-1).status == CELLARCOVE_OUTSIDE);
    ANSWERS(cellarcove_ilog_i64(999, 10), 2);
    REFUSES(cellarcove_ilog_u64(0, 10), CELLARCOVE_OUTSIDE);
    CHECK(cellarcove_is_coprime_i64(8, -15) && !cellarcove_is_coprime_u64(8, 6));
    cellarcove_i64_pair pair = cellarcove_reduced_i64(-6, 4);
    CHECK(pair.first == -3 && pair.second == 2 && cellarcove_reduced_u64(1920, 1080).first == 16);
    ANSWERS(cellarcove_factorial_i64(5), 120);
    REFUSES(cellarcove_factorial_i64(-1), CELLARCOVE_OUTSIDE);
    REFUSES(cellarcove_factorial_u64(21), CELLARCOVE_NOT_FITTING);
    ANSWERS(cellarcove_falling_u64(8, 3), 336);
    REFUSES(cellarcove_falling_i64(8, -1), CELLARCOVE_OUTSIDE);
    ANSWERS(cellarcove_next_meeting_i64(-100, 1, 4, 3, 6), 9);
    REFUSES(cellarcove_next_meeting_u64(0, 0, 2, 1, 2), CELLARCOVE_NO_SOLUTION);
    ANSWERS(cellarcove_count_times_i64(-9, 15, 3, 6), 3);
    REFUSES(cellarcove_count_times_u64(4, 15, 3, 0), CELLARCOVE_BAD_MODULUS);
    ANSWERS(cellarcove_residue_i64(-3, 7), 4);
    ANSWERS(cellarcove_negation_modulo_u64(3, 7), 4);
}

static void more_of_fractions(void) {
    const cellarcove_fraction thirds = {5, 3}, zero = {0, 1}, minus = {-3, 2};
    cellarcove_fraction_answer half = cellarcove_fraction_fract(minus);
    CHECK(half.status == CELLARCOVE_ANSWER && half.value.num == -1 && half.value.den == 2);
    CHECK(cellarcove_fraction_recip(zero).status == CELLARCOVE_ZERO_DENOMINATOR && cellarcove_fraction_recip(thirds).value.num == 3);
    CHECK(cellarcove_fraction_neg(thirds).value.num == -5 && cellarcove_fraction_abs(minus).value.num == 3);
    CHECK(cellarcove_fraction_pow(thirds, -2).value.den == 25 && cellarcove_fraction_pow(zero, -1).status == CELLARCOVE_ZERO_DENOMINATOR);
    CHECK(cellarcove_fraction_times(thirds, 9, 4).value.num == 15 && cellarcove_fraction_times(thirds, 1, 0).status == CELLARCOVE_ZERO_DENOMINATOR);
    ANSWERS(cellarcove_fraction_trunc(minus), -1);
    CHECK(cellarcove_fraction_floor_to(thirds, 4).value.num == 3 && cellarcove_fraction_ceil_to(thirds, 4).value.num == 7);
    CHECK(cellarcove_fraction_round_to(thirds, 100).value.num == 167 && cellarcove_fraction_round_to(thirds, 0).status == CELLARCOVE_OUTSIDE);
}

static bool is_decimal(cellarcove_decimal_answer r, bool is_negative, uint64_t whole, uint64_t part) {
    return r.status == CELLARCOVE_ANSWER && r.is_negative == is_negative && r.whole == whole && r.part == part;
}

static void decimals(void) {
    const cellarcove_fraction price = {1234, 5}, eighth = {1, 8}, minus = {-1, 20}, none = {1, 0}, lowest = {INT64_MIN, 1};
    ANSWERS(cellarcove_fraction_round_even_times(eighth, 4), 0);
    ANSWERS(cellarcove_fraction_round_even_times(eighth, -12), -2);
    REFUSES(cellarcove_fraction_round_even_times(lowest, -1), CELLARCOVE_NOT_FITTING);
    CHECK(cellarcove_fraction_round_even_to(eighth, 100).value.den == 25 && cellarcove_fraction_round_even_to(eighth, 100).value.num == 3);
    CHECK(cellarcove_fraction_round_even_to(none, 0).status == CELLARCOVE_OUTSIDE);
    CHECK(is_decimal(cellarcove_fraction_to_decimal(price, 2), false, 246, 80));
    CHECK(is_decimal(cellarcove_fraction_to_decimal(minus, 2), true, 0, 5) && is_decimal(cellarcove_fraction_to_decimal(minus, 1), false, 0, 0));
    CHECK(is_decimal(cellarcove_fraction_to_decimal(lowest, 18), true, UINT64_C(1) << 63, 0));
    cellarcove_decimal_answer refused = cellarcove_fraction_to_decimal(minus, 19);
    CHECK(refused.status == CELLARCOVE_OUTSIDE && !refused.is_negative && refused.whole == 0 && refused.part == 0);
    CHECK(cellarcove_fraction_to_decimal(none, 19).status == CELLARCOVE_ZERO_DENOMINATOR);
    cellarcove_decimal_answer amount = cellarcove_fraction_to_decimal(minus, 2);
    char text[48];
    snprintf(text, sizeof text, "%s%" PRIu64 ".%0*" PRIu64, amount.is_negative ? "-" : "", amount.whole, 2, amount.part);
    CHECK(strcmp(text, "-0.05") == 0);
}

static void more_of_dates(void) {
    const cellarcove_date leap = {2000, 2, 29}, later = {2025, 2, 28}, none = {1900, 2, 29};
    ANSWERS(cellarcove_years_between(leap, later), 25);
    REFUSES(cellarcove_years_between(leap, none), CELLARCOVE_NO_DATE);
    ANSWERS(cellarcove_weekday_of_date(leap), 2);
    REFUSES(cellarcove_weekday_of_date(none), CELLARCOVE_NO_DATE);
    CHECK(is_date(cellarcove_date_from_year_day(2000, 60).date, 2000, 2, 29));
    CHECK(cellarcove_date_from_year_day(1900, 366).status == CELLARCOVE_NO_DATE);
    ANSWERS(cellarcove_first_weekday_on_or_after(1, 7), 3);
    REFUSES(cellarcove_first_weekday_on_or_after(1, 8), CELLARCOVE_OUTSIDE);
    ANSWERS(cellarcove_last_weekday_on_or_before(1, 7), -4);
    REFUSES(cellarcove_last_weekday_on_or_before(INT64_MIN, 1), CELLARCOVE_NOT_FITTING);
    CHECK(cellarcove_days_in_year(2000) == 366 && cellarcove_days_in_year(1900) == 365);
}

static void texts(void) {
    const char *half = "6/-4";
    CHECK(cellarcove_fraction_from_text(half, 4).value.num == -3 && cellarcove_fraction_from_text(half, 1).value.num == 6);
    CHECK(cellarcove_fraction_from_text(half, 2).status == CELLARCOVE_OUTSIDE && cellarcove_fraction_from_text(NULL, 0).status == CELLARCOVE_OUTSIDE);
    CHECK(cellarcove_fraction_from_text("1/0", 3).status == CELLARCOVE_ZERO_DENOMINATOR);
    CHECK(cellarcove_fraction_from_text("9223372036854775808", 19).status == CELLARCOVE_NOT_FITTING);
    const char *price = "-0.050";
    CHECK(cellarcove_fraction_from_decimal(price, 6).value.num == -1 && cellarcove_fraction_from_decimal(price, 6).value.den == 20);
    CHECK(cellarcove_fraction_from_decimal(price + 1, 1).status == CELLARCOVE_ANSWER && cellarcove_fraction_from_decimal(price, 3).status == CELLARCOVE_OUTSIDE);
    CHECK(cellarcove_fraction_from_decimal("1,5", 3).status == CELLARCOVE_OUTSIDE && cellarcove_fraction_from_decimal(NULL, 0).status == CELLARCOVE_OUTSIDE);
    CHECK(cellarcove_fraction_from_decimal("9223372036854775807.5", 21).status == CELLARCOVE_NOT_FITTING);
    const char *day = "+12000-04-02";
    CHECK(is_date(cellarcove_date_from_text(day, 12).date, 12000, 4, 2) && is_date(cellarcove_date_from_text(day + 2, 10).date, 2000, 4, 2));
    CHECK(cellarcove_date_from_text(day + 1, 11).status == CELLARCOVE_NO_DATE && cellarcove_date_from_text(NULL, 0).status == CELLARCOVE_NO_DATE);
}

int main(void) {
    layout();
    words();
    operators();
    division();
    divisors();
    lists();
    roots();
    square_roots();
    powers();
    small_coefficients();
    coefficients();
    residues();
    congruences();
    several_congruences();
    fractions();
    dates();
    days_and_years();
    last_and_first_week();
    rounded_quotients();
    divided_by_one();
    sums_of_arrays();
    shares();
    numbers_of_pages();
    counts_and_times();
    more_of_fractions();
    decimals();
    more_of_dates();
    texts();
    printf("%d results right, %d wrong\n", passed, failed);
    return failed != 0;
}
