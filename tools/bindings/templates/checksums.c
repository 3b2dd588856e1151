#include <inttypes.h>
#include <stdio.h>

#include "cellarcove.h"

enum { CALLS = 20000, COUNTS = 7, BYTES = 11 };

static uint64_t state, sum, results;
static int wrong;
static unsigned width; /* of the numbers of a call, or 0 if each has a width of its own */

/* The next number of splitmix64. */
static uint64_t random_bits(void) {
    uint64_t z = state += UINT64_C(0x9e3779b97f4a7c15);
    z = (z ^ (z >> 30)) * UINT64_C(0xbf58476d1ce4e5b9);
    z = (z ^ (z >> 27)) * UINT64_C(0x94d049bb133111eb);
    return z ^ (z >> 31);
}

/* A number of any size, at times an end of a type or beside one. */
static uint64_t any(void) {
    uint64_t choice = random_bits();
    if (choice % 16 == 0) {
        static const uint64_t ends[] = {0, UINT64_C(1) << 31, UINT64_C(1) << 32, UINT64_C(1) << 63};
        return ends[choice / 16 % 4] + choice / 64 % 5 - 2;
    }
    uint64_t number = random_bits() >> (64 - (width > 0 ? width : choice / 16 % 64 + 1));
    return choice / 1024 % 4 == 0 ? 0 - number : number;
}

static uint8_t any_uint8_t(void) {
    uint64_t choice = random_bits();
    return (uint8_t)(choice % 8 == 0 ? choice / 8 : choice / 8 % 56);
}

static uint32_t any_uint32_t(void) {
    uint64_t choice = random_bits();
    return (uint32_t)(choice % 4 == 0 ? choice / 4 : choice / 4 % 70);
}

static uint16_t any_uint16_t(void) {
    uint64_t choice = random_bits();
    return (uint16_t)(choice % 4 == 0 ? choice / 4 : choice / 4 % 370);
}

static int32_t any_int32_t(void) {
    uint64_t choice = random_bits();
    return choice % 4 == 0 ? (int32_t)(uint32_t)(choice / 4) : (int32_t)(choice / 4 % 23) - 11;
}

static uint64_t any_uint64_t(void) { return any(); }
static int64_t any_int64_t(void) { return (int64_t)any(); }

static cellarcove_fraction any_cellarcove_fraction(void) {
    cellarcove_fraction fraction;
    fraction.num = any_int64_t();
    fraction.den = any_int64_t();
    return fraction;
}

/* Parts of a date, most of which are one. */
static cellarcove_date any_cellarcove_date(void) {
    cellarcove_date date;
    date.year = any_int64_t();
    date.month = (uint8_t)(random_bits() % 14);
    date.day_of_month = (uint8_t)(random_bits() % 33);
    return date;
}

/* Up to COUNTS numbers, and how many there are. */
static size_t fill_uint64_t(uint64_t *counts) {
    size_t count = random_bits() % (COUNTS + 1);
    for (size_t i = 0; i < count; i++) {
        counts[i] = random_bits() % 16 == 0 ? any() : random_bits() % 12;
    }
    return count;
}

static size_t fill_int64_t(int64_t *counts) {
    size_t count = random_bits() % (COUNTS + 1);
    for (size_t i = 0; i < count; i++) {
        counts[i] = random_bits() % 16 == 0 ? any_int64_t() : (int64_t)(random_bits() % 23) - 11;
    }
    return count;
}

/* A text of digits and signs, or one that may be a date, from its first byte or from the second one on. */
static size_t fill_char(char *counts) {
    size_t count = random_bits() % (COUNTS + 1);
    if (random_bits() % 2 == 0) {
        const char *form = "+2123-01-28" + random_bits() % 2;
        for (count = 0; form[count] != 0; count++) {
            char byte = form[count]; /* a digit is at most that of the form */
            counts[count] = byte < '0' ? byte : (char)('0' + (int)(random_bits() % (uint64_t)(byte - '0' + 1)));
        }
        return count;
    }
    for (size_t i = 0; i < count; i++) {
        counts[i] = "01234567890//-+x"[random_bits() % 16 * (random_bits() % 16) / 15];
    }
    return count;
}

/* Congruences, most of which have small moduli. */
static size_t fill_cellarcove_u64_congruence(cellarcove_u64_congruence *counts) {
    size_t count = random_bits() % (COUNTS + 1);
    for (size_t i = 0; i < count; i++) {
        counts[i].residue = random_bits() % 4;
        counts[i].modulus = random_bits() % 16 == 0 ? any() : random_bits() % 12 + (random_bits() % 8 > 0);
    }
    return count;
}

static size_t fill_cellarcove_i64_congruence(cellarcove_i64_congruence *counts) {
    size_t count = random_bits() % (COUNTS + 1);
    for (size_t i = 0; i < count; i++) {
        counts[i].residue = (int64_t)(random_bits() % 7) - 3;
        counts[i].modulus = random_bits() % 16 == 0 ? any_int64_t() : (int64_t)(random_bits() % 12 + (random_bits() % 8 > 0));
    }
    return count;
}

static void add(uint64_t part) {
    sum = (sum ^ part) * UINT64_C(0x9e3779b97f4a7c15);
    sum ^= sum >> 29;
}

static void start(uint64_t seed) {
    state = seed;
    sum = results = 0;
}

static void start_call(void) {
    uint64_t choice = random_bits();
    width = choice % 2 == 0 ? 0 : choice / 2 % 64 + 1;
}

static void finish(const char *name) {
    printf("%s: %" PRIu64 " results, checksum %016" PRIx64 "\n", name, results, sum);
}

/* A status is one of those of the call, and the numbers of a rejection are 0. */
static void look(const char *name, uint32_t status, unsigned allowed, bool zero) {
    results += status == 0;
    if ((allowed >> status & 1) == 0 || (status != 0 && !zero)) {
        printf("%s: status %" PRIu32 "\n", name, status);
        wrong = 1;
    }
}
{calls}

int main(void) {
{runs}
    return wrong;
}
