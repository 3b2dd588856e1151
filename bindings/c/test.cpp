// The header for C++: each template with both signs, each class with its operators and its text, and what it refuses.
#include "cellarcove.hpp"

#include <array>
#include <cstdio>
#include <iomanip>
#include <map>
#include <sstream>
#include <string>
#include <unordered_set>
#include <vector>
#ifdef __cpp_lib_span
#include <span>
#endif

#if defined(NEEDS_FORMAT) && !defined(__cpp_lib_format)
#error "the library of this compiler has no std::format"
#endif

static int failed = 0;
static int passed = 0;

#define CHECK(...)                                                    \
    do {                                                              \
        if (__VA_ARGS__) {                                            \
            passed++;                                                 \
        } else {                                                      \
            failed++;                                                 \
            std::printf("FAIL line %d: %s\n", __LINE__, #__VA_ARGS__); \
        }                                                             \
    } while (0)

using cellarcove::date;
using cellarcove::fraction;
using cellarcove::status;

static void numbers() {
    CHECK(*cellarcove::gcd(-56, 42) == 14);
    CHECK(*cellarcove::gcd(UINT64_MAX, 0U) == UINT64_MAX);
    CHECK(cellarcove::gcd(INT64_MIN, 0) == status::not_fitting);
    static_assert(std::is_same_v<decltype(cellarcove::gcd(1U, 2U)), cellarcove::result<std::uint64_t>>);
    static_assert(std::is_same_v<decltype(cellarcove::gcd(short(1), 2L)), cellarcove::result<std::int64_t>>);
    CHECK(cellarcove::div_floor(-8, 3).value_or(0) == -3);
    CHECK(!cellarcove::div_floor(1, 0) && cellarcove::div_floor(1, 0).error() == status::outside);
    CHECK(!cellarcove::div_floor(1, 0).optional());
    auto both = cellarcove::div_rem(-8, 3);
    CHECK(both->quotient == -2 && both->remainder == -2);
    CHECK(*cellarcove::gcd_lcm(10U, 4U) == cellarcove::gcd_and_lcm<std::uint64_t>{2, 20});
    CHECK(*cellarcove::extended_gcd(240, 46) == cellarcove::bezout{2, -9, 47});
    CHECK(*cellarcove::power_modulo(-3, 3, 7) == 1 && *cellarcove::power_modulo(3U, 4, 7U) == 4);
    CHECK(*cellarcove::nth_root(-9, 3) == -2 && cellarcove::nth_root(-9, 2) == status::outside);
    CHECK(cellarcove::average_floor(-2, -5) == -4 && cellarcove::average_floor(UINT64_MAX, UINT64_MAX) == UINT64_MAX);
    CHECK(cellarcove::is_multiple_of(-9, 3) && !cellarcove::is_multiple_of(8U, 3U));
    auto solved = cellarcove::chinese_remainder(1, 4, 3, 6);
    CHECK(solved->first == 9 && solved->step == 12);
    CHECK(cellarcove::chinese_remainder(1, 4, 2, 6) == status::no_solution);
    CHECK(*cellarcove::multinomial(std::vector<std::uint64_t>{2, 1, 2}) == 30);
    CHECK(*cellarcove::multinomial(std::vector<std::uint64_t>{}) == 1);
    CHECK(*cellarcove::rank(std::vector<std::uint64_t>{0, 2, 3}, 5) == 2);
    CHECK(*cellarcove::gcd_of(std::vector<std::uint64_t>{12, 18, 8}) == 2);
    CHECK(*cellarcove::lcm_of(std::vector<std::uint64_t>{4, 6, 10}) == 60);
    CHECK(cellarcove::lcm_of(std::vector<std::uint64_t>{UINT64_MAX, 2}) == status::not_fitting);
    CHECK(*cellarcove::gcd_of(std::vector<std::int64_t>{-12, 18, 8}) == 2);
    CHECK(cellarcove::gcd_of(std::vector<std::int64_t>{INT64_MIN, 0}) == status::not_fitting);
    CHECK(*cellarcove::lcm_of(std::vector<std::int64_t>{-4, 6, 10}) == 60);
    CHECK(*cellarcove::div_round_even(5, 2) == 2 && *cellarcove::div_round(5U, 2U) == 3);
    CHECK(*cellarcove::sqrt_rem(99) == cellarcove::root_and_rest<std::int64_t>{9, 18});
    CHECK(*cellarcove::range_of_page(2U, 4U, 10U) == cellarcove::range<std::uint64_t>{8, 10});
    CHECK(*cellarcove::place_of(-1, 4) == cellarcove::place_on_page<std::int64_t>{-1, 3});
    CHECK(cellarcove::reduced(-6, 4) == std::pair<std::int64_t, std::int64_t>{-3, 2});
    std::vector<std::int64_t> parts(3);
    CHECK(cellarcove::shares(-100, std::vector<std::uint64_t>{1, 1, 1}, parts) == status::answer && parts == std::vector<std::int64_t>{-34, -33, -33});
    CHECK(cellarcove::shares(-100, std::vector<std::uint64_t>{0, 0, 0}, parts) == status::outside);
    CHECK(cellarcove::div_floor_each(std::vector<std::int64_t>{-8, 8, 7}, 3, parts) == status::answer && parts == std::vector<std::int64_t>{-3, 2, 2});
    CHECK(cellarcove::div_floor_each(std::vector<std::int64_t>{-8, 8, 7}, -3, parts) == status::answer && parts == std::vector<std::int64_t>{2, -3, -3});
    CHECK(cellarcove::div_floor_each(std::vector<std::int64_t>{INT64_MIN, 8, 7}, -1, parts) == status::not_fitting && parts[0] == 2);
    CHECK(cellarcove::div_floor_each(std::vector<std::int64_t>{-8, 8, 7}, UINT64_MAX, parts) == status::not_fitting);
    const std::vector<std::int64_t> addends{3, 5, -7};
    CHECK(cellarcove::checked_sum_each(std::vector<std::int64_t>{2, -8, 7}, addends, parts) == status::answer && parts == std::vector<std::int64_t>{5, -3, 0});
    CHECK(cellarcove::checked_sum_each(std::vector<std::int64_t>{2, INT64_MAX, 7}, addends, parts) == status::not_fitting && parts[0] == 5);
    CHECK(cellarcove::checked_sum_each(std::vector<std::int64_t>{2, -8}, addends, parts) == status::outside && parts[0] == 5);
    CHECK(*cellarcove::date_from_text("-0001-12-31") == *date::make(-1, 12, 31) && cellarcove::date_from_text("2026-1-1") == status::no_date);
    CHECK(*cellarcove::fraction_to_decimal(*fraction::make(-1, 20), 2) == cellarcove::decimal{true, 0, 5, 2});
    CHECK(cellarcove::fraction_to_decimal(1, 19) == status::outside && cellarcove::fraction_to_decimal(1, -1) == status::outside);
    CHECK(*cellarcove::fraction_from_text("6/-4") == *fraction::make(-3, 2) && cellarcove::fraction_from_text("1/0") == status::zero_denominator);
    CHECK(*cellarcove::fraction_from_decimal("12.34") == *fraction::make(617, 50) && cellarcove::fraction_from_decimal("1e3") == status::outside);
    static_assert(std::is_same_v<decltype(cellarcove::weekday(0)), int> && std::is_same_v<decltype(date::make(1, 1, 1)->month()), int>);
    static_assert(!std::is_convertible_v<std::int64_t, cellarcove::result<std::int64_t>>);
    std::ostringstream words;
    words << status::no_date << ' ' << cellarcove::div_floor(-8, 3) << ' ' << date::make(2000, 2, 29) << ' ' << cellarcove::div_floor(1, 0);
    CHECK(words.str() == std::string("there is no such date -3 2000-02-29 ") + cellarcove::text(status::outside));
    std::vector<std::uint64_t> choice(3);
    CHECK(cellarcove::choice_of_rank(2, 5, choice) == status::answer && choice == std::vector<std::uint64_t>{0, 2, 3});
    CHECK(cellarcove::choice_of_rank(10, 5, choice) == status::outside && choice == std::vector<std::uint64_t>{0, 2, 3});
    std::vector<cellarcove::i64_congruence> congruences{{1, 4}, {3, 6}, {0, 7}};
    CHECK(*cellarcove::next_common_solution_of(10, congruences) == 21 && *cellarcove::next_common_solution_of(-100, congruences) == -63);
    CHECK(cellarcove::next_common_solution_of(0U, std::vector<cellarcove::u64_congruence>{{1, 4}, {2, 6}}) == status::no_solution);
    CHECK(cellarcove::is_square(144) && cellarcove::is_power(-243, 5U) && !cellarcove::is_power(244U, 5U));
    CHECK(cellarcove::is_perfect_power(128U));
    CHECK(*cellarcove::checked_product(1 << 20, 1 << 20).and_then([](std::int64_t x) { return cellarcove::checked_sum(x, 1); })
        == (INT64_C(1) << 40) + 1);
    CHECK(cellarcove::checked_product(INT64_MAX, 2).and_then([](std::int64_t x) { return cellarcove::checked_sum(x, 1); })
        == status::not_fitting);
    bool thrown = false;
    try {
        (void)cellarcove::checked_sum(INT64_MAX, 1).value();
    } catch (const std::bad_optional_access &error) {
        thrown = error.what() == std::string(cellarcove::text(status::not_fitting));
    }
    CHECK(thrown && cellarcove::checked_sum(2, 3).value() == 5);
}

// A number out of the range of its parameter is refused, and never taken for another one.
static void ranges() {
    const std::uint64_t large = (UINT64_C(1) << 63) + 2;
    int negative = -3, month = 258;
    CHECK(cellarcove::power_modulo(3, -1, 7) == status::outside && cellarcove::power_modulo(3U, -1, 7U) == status::outside);
    CHECK(*cellarcove::power_modulo(3, UINT64_MAX, 7) == 6);
    CHECK(cellarcove::nth_root(8, negative) == status::outside && cellarcove::nth_root(8U, UINT64_C(1) << 32) == status::not_fitting);
    CHECK(*cellarcove::nth_root(8, UINT32_MAX) == 1);
    CHECK(cellarcove::extended_gcd(large, 6ULL) == status::not_fitting && cellarcove::extended_gcd(6, large) == status::not_fitting);
    CHECK(*cellarcove::extended_gcd(240U, short(46)) == cellarcove::bezout{2, -9, 47});
    std::vector<std::uint64_t> choice(2);
    CHECK(cellarcove::choice_of_rank(negative, 5, choice) == status::outside);
    CHECK(cellarcove::choice_of_rank(0, negative, choice) == status::outside);
    CHECK(cellarcove::rank(choice.data(), -1, 5) == status::outside && cellarcove::rank(choice, negative) == status::outside);
    std::vector<cellarcove::i64_congruence> congruences{{1, 4}};
    CHECK(cellarcove::next_common_solution_of(large, congruences) == status::not_fitting);
    CHECK(cellarcove::next_common_solution_of(negative, std::vector<cellarcove::u64_congruence>{{1, 4}}) == status::outside);

    CHECK(fraction::make(large, 4) == status::not_fitting && fraction::make(1, large) == status::not_fitting);
    CHECK(cellarcove::fraction_round_times(1, large) == status::not_fitting);
    CHECK(cellarcove::fraction_limit_denominator(1, large) == status::not_fitting);

    auto day = *date::make(2024, 1, 1);
    CHECK(date::make(2024, month, 1) == status::no_date && date::make(2024, 1, 257) == status::no_date);
    CHECK(date::make(2024, -254, 1) == status::no_date && date::make(2024, 1, -255) == status::no_date);
    CHECK(date::make(large, 1, 1) == status::not_fitting && *date::make(2024U, 1L, std::uint8_t{1}) == day);
    CHECK(day + large == status::not_fitting && cellarcove::plus_months(day, large) == status::not_fitting);
    CHECK(cellarcove::days_in_month(2024, month) == status::no_date && cellarcove::days_in_month(2024, -254) == status::no_date);
    CHECK(cellarcove::nth_weekday_of_month(2024, month, 1, 1) == status::no_date);
    CHECK(cellarcove::nth_weekday_of_month(2024, month, 257, 1) == status::outside);
    CHECK(cellarcove::nth_weekday_of_month(2024, 1, 1, 257) == status::no_date);
    CHECK(cellarcove::nth_weekday_of_month(2024, 1, 1, -255) == status::no_date);
    CHECK(cellarcove::last_weekday_of_month(2024, 1, -255) == status::outside);
    CHECK(cellarcove::date_from_iso_week(2024, 257, 1) == status::no_date);
    CHECK(cellarcove::date_from_iso_week(2024, 1, 257) == status::outside);
    CHECK(cellarcove::date_from_iso_week(large, 1, 1) == status::not_fitting);
}

// What a stream gets of a value, whatever it is set to but for the width and the fill.
template <class T> static std::string text_of(const T &value) {
    std::ostringstream plain, set;
    plain << value;
    set << std::hex << std::showpos << std::showbase << std::setw(50) << std::setfill('*') << value;
    CHECK(set.str() == std::string(50 - plain.str().size(), '*') + plain.str() && to_string(value) == plain.str());
    return plain.str();
}

// The texts are those that Rust and Python print, and that Rust reads.
static void texts() {
    CHECK(text_of(*fraction::make(6, -4)) == "-3/2" && text_of(fraction(7)) == "7" && text_of(fraction()) == "0");
    CHECK(text_of(fraction(INT64_MIN)) == "-9223372036854775808");
    CHECK(text_of(*fraction::make(INT64_MIN, INT64_MAX)) == "-9223372036854775808/9223372036854775807");
    CHECK(text_of(*cellarcove::fraction_to_decimal(*fraction::make(1234, 5), 2)) == "246.80");
    CHECK(text_of(*cellarcove::fraction_to_decimal(*fraction::make(-1, 20), 2)) == "-0.05" && text_of(*cellarcove::fraction_to_decimal(7, 0)) == "7");
    CHECK(text_of(*cellarcove::fraction_to_decimal(INT64_MIN, 18)) == "-9223372036854775808.000000000000000000");
    CHECK(text_of(*date::make(2000, 2, 29)) == "2000-02-29" && text_of(*date::make(9999, 12, 31)) == "9999-12-31");
    CHECK(text_of(cellarcove::easter(12000)) == "+12000-04-02" && text_of(cellarcove::easter(5)) == "0005-04-17");
    CHECK(text_of(*date::make(0, 1, 1)) == "0000-01-01" && text_of(*date::make(-1, 12, 3)) == "-0001-12-03");
    CHECK(text_of(*date::make(-12345, 10, 9)) == "-12345-10-09");
    CHECK(text_of(*date::make(INT64_MIN, 12, 31)) == "-9223372036854775808-12-31");
    CHECK(text_of(*date::make(INT64_MAX, 12, 31)) == "+9223372036854775807-12-31");
    CHECK(text_of(*cellarcove::iso_week(*date::make(2005, 1, 1))) == "2004-W53");
    CHECK(text_of(*cellarcove::iso_week(*date::make(-3, 1, 10))) == "-0003-W02");
}

static void fractions() {
    auto half = *fraction::make(1, 2), third = *fraction::make(-1, -3);
    CHECK(*(half + third) == *fraction::make(5, 6) && *(half - third) == *fraction::make(1, 6));
    CHECK(*(half * third) == *fraction::make(1, 6) && *(half / third) == *fraction::make(3, 2));
    CHECK(third < half && half > third && third <= half && half >= half && half != third);
    CHECK(*(half + 1) == *fraction::make(3, 2) && fraction(7).num() == 7 && fraction().den() == 1);
    CHECK(half / 0 == status::zero_denominator && fraction::make(1, 0) == status::zero_denominator);
    CHECK(fraction::make(INT64_MIN, -1) == status::not_fitting);
    CHECK(*cellarcove::fraction_floor(*fraction::make(-3, 2)) == -2 && *cellarcove::fraction_ceil(*fraction::make(-3, 2)) == -1);
    CHECK(*cellarcove::fraction_limit_denominator(*fraction::make(3, 10), 5) == third);
}

static void dates() {
    auto end = *date::make(2000, 1, 31), leap = *date::make(2000, 2, 29), far = *date::make(INT64_MAX, 12, 31);
    CHECK(date::make(1900, 2, 29) == status::no_date);
    CHECK(*cellarcove::plus_months(end, 1) == leap && *(leap - end) == 29 && *(end + 29) == leap);
    CHECK(end < leap && leap > end && end <= leap && far >= leap && end != leap);
    CHECK(far + 1 == status::not_fitting && far - -1 == status::not_fitting && far - UINT64_MAX == status::not_fitting);
    CHECK(*(leap - 29) == end && *(end - -29) == leap && *(far - INT64_MAX) == *date::make(INT64_C(9198119301927009253), 6, 5));
    CHECK(*(leap - INT64_MIN) == *date::make(INT64_C(25252734927768554), 9, 25) && far - INT64_MIN == status::not_fitting);
    CHECK(cellarcove::easter(2024) == *date::make(2024, 3, 31) && cellarcove::date_from_day(-1) == *date::make(1969, 12, 31));
    CHECK(cellarcove::weekday(0) == 4);
    CHECK(*cellarcove::iso_week(*date::make(2005, 1, 1)) == cellarcove::week_of_year{53, 2004});
}

// What the header computes in constant expressions is what the calls return.
template <class T> static void constants_of(const std::vector<T> &numbers) {
    namespace constant = cellarcove::detail::constant;
    for (T a : numbers) {
        for (T b : numbers) {
            CHECK(constant::div_rem(a, b) == cellarcove::div_rem(a, b));
            CHECK(constant::div_floor(a, b) == cellarcove::div_floor(a, b));
            CHECK(constant::div_mod_floor(a, b) == cellarcove::div_mod_floor(a, b));
            CHECK(constant::mod_floor(a, b) == cellarcove::mod_floor(a, b));
            CHECK(constant::div_ceil(a, b) == cellarcove::div_ceil(a, b));
        }
    }
}

static void constants() {
    std::vector<std::int64_t> numbers{INT64_MIN, INT64_MIN + 1, -(INT64_C(1) << 32), INT64_C(1) << 32, INT64_MAX - 1, INT64_MAX};
    std::vector<std::uint64_t> naturals{UINT64_MAX, UINT64_MAX - 1, UINT64_C(1) << 63, UINT64_C(1) << 32};
    for (std::int64_t number = -9; number <= 9; number++) {
        numbers.push_back(number);
        naturals.push_back(static_cast<std::uint64_t>(number + 9));
    }
    constants_of(numbers);
    constants_of(naturals);
    std::vector<fraction> fractions;
    for (std::int64_t num : numbers) {
        for (std::int64_t den : numbers) {
            auto made = fraction::make(num, den);
            auto constant = cellarcove::detail::constant::fraction_new(num, den);
            CHECK(static_cast<status>(constant.status) == made.error());
            if (made) {
                fractions.push_back(*made);
                CHECK(constant.value.num == made->num() && constant.value.den == made->den());
            }
        }
    }
    for (const fraction &a : fractions) {
        for (const fraction &b : fractions) {
            CHECK(cellarcove::detail::constant::is_less(a, b) == (*cellarcove::fraction_cmp(a, b) < 0));
        }
    }
    static_assert(*cellarcove::div_floor(-8, 3) == -3 && *cellarcove::div_ceil(-8, 3) == -2 && *cellarcove::mod_floor(INT64_MIN, -1) == 0);
    static_assert(cellarcove::div_rem(-8, 3)->remainder == -2 && cellarcove::div_mod_floor(-8, 3)->remainder == 1);
    static_assert(cellarcove::div_ceil(7U, 2U) == cellarcove::result<std::uint64_t>(4) && cellarcove::div_floor(1U, 0U) == status::outside);
    static_assert(fraction(2) < fraction(3) && fraction(-2) > fraction(-3) && fraction(2) >= 2);
    static_assert(*fraction::make(2, -4) < *fraction::make(-1, 3) && fraction::make(1, 0) == status::zero_denominator);
    static_assert(*date::make(2024, 2, 29) < *date::make(2024, 3, 1) && date::make(1900, 2, 29) == status::no_date);
    numbers.insert(numbers.end(), {1600, 1900, 2000, 2023, 2024});
    for (std::int64_t year : numbers) {
        for (int month = 0; month <= 13; month++) {
            for (int day = 0; day <= 32; day++) {
                CHECK(cellarcove::detail::constant::is_there(year, month, day) == date::make(year, month, day).has_value());
            }
        }
    }
}

// What the standard library knows of the classes.
static void idioms() {
    auto half = *fraction::make(1, 2);
    auto day = *date::make(2024, 1, 31);
    cellarcove::result<fraction> total(fraction(0));
    total += half;
    total += half;
    total *= 3;
    total -= 1;
    total /= 4;
    CHECK(*total == half);
    CHECK((total /= 0) == status::zero_denominator && (total += half) == status::zero_denominator);
    cellarcove::result<date> later(day);
    CHECK(*(later += 1) == *date::make(2024, 2, 1) && *(later -= 1) == day);
    CHECK(cellarcove::div_floor(7, 2).transform([](std::int64_t x) { return x == 3; }).value());
    CHECK(cellarcove::div_floor(7, 0).transform([](std::int64_t x) { return x == 3; }) == status::outside);
    CHECK(*cellarcove::div_floor(7, 0).or_else([](status) { return cellarcove::result<std::int64_t>(-1); }) == -1);
    CHECK(*cellarcove::div_floor(7, 2).or_else([](status) { return cellarcove::result<std::int64_t>(-1); }) == 3);

    CHECK(*fraction::from_c({2, 4}) == half && fraction::from_c({1, 0}) == status::zero_denominator);
    CHECK(*date::from_c({2024, 1, 31}) == day && date::from_c({2024, 13, 45}) == status::no_date);

    std::unordered_set<fraction> fractions{half, *fraction::make(2, 4), fraction(3)};
    std::unordered_set<date> dates{day, *date::make(2024, 1, 30), day};
    CHECK(fractions.size() == 2 && fractions.count(half) == 1 && dates.size() == 2 && dates.count(day) == 1);
    std::map<date, int> sorted{{day, 2}, {*date::make(2023, 12, 31), 1}};
    CHECK(sorted.begin()->second == 1);

    std::int64_t numbers[] = {12, -18, 8};
    std::vector<long long> long_long{12, -18, 8};
    std::vector<long> of_long{12, -18, 8};
    static_assert(sizeof(long long) == sizeof(std::int64_t));
    CHECK(*cellarcove::gcd_of(numbers) == 2 && *cellarcove::gcd_of(long_long) == 2 && *cellarcove::gcd_of(std::array<std::int64_t, 2>{4, 6}) == 2);
    CHECK(sizeof(long) != sizeof(std::int64_t) || *cellarcove::gcd_of(std::vector<std::int64_t>(of_long.begin(), of_long.end())) == 2);
    const std::uint64_t weights[] = {1, 1, 1};
    unsigned long long parts[3] = {};
    CHECK(cellarcove::shares(100U, weights, parts) == status::answer && parts[0] == 34 && parts[2] == 33);
#ifdef __cpp_lib_span
    CHECK(cellarcove::shares(10U, std::span(weights), std::span(parts)) == status::answer && parts[0] == 4);
#endif
#ifdef __cpp_lib_three_way_comparison
    CHECK((half <=> fraction(1)) < 0 && (day <=> day) == 0 && (fraction(2) <=> half) > 0);
#endif
#ifdef __cpp_lib_format
    CHECK(std::format("{} {:>6} {} {}", half, half, day, status::no_date) == "1/2    1/2 2024-01-31 there is no such date");
    CHECK(std::format("{:*^12}|{}", day, cellarcove::decimal{true, 0, 5, 2}) == "*2024-01-31*|-0.05");
    CHECK(std::format("{}", *cellarcove::iso_week(day)) == "2024-W05");
    CHECK(std::format("{} {:>6}|{}", half + half, half + 1, fraction::make(1, 0)) == "1    3/2|" + std::string(text(status::zero_denominator)));
    CHECK(std::format("{:+05}|{:05}", cellarcove::div_floor(7, 2), cellarcove::div_floor(7, 0)) == "+0003|" + std::string(text(status::outside)));
    CHECK(std::format("{} {}", cellarcove::iso_week(day), day - day) == "2024-W05 0");
    static_assert(!std::is_default_constructible_v<std::formatter<cellarcove::result<cellarcove::bezout>>>);
#endif
    static_assert(CELLARCOVE_VERSION_NUMBER == CELLARCOVE_VERSION_MAJOR * 10000 + CELLARCOVE_VERSION_MINOR * 100 + CELLARCOVE_VERSION_PATCH);
}

int main() {
    CHECK(std::string(cellarcove::text(status::no_date)) == "there is no such date");
    numbers();
    ranges();
    texts();
    fractions();
    dates();
    constants();
    idioms();
    std::printf("%d results right, %d wrong\n", passed, failed);
    return failed != 0;
}
