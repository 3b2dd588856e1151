"""What Python's own arithmetic answers where the tests of crates/replay ask ratio64, modular,
calendar and applied, for crates/replay/src/tests/libraries.rt. `tools/cellarcove make python`
writes it.

Each function stands beside the one of its name in crates/replay, and goes over the same inputs in
the same order. Most results are those of tools/bindings/by_python.py, with which the exports are
compared too. """
import tomllib
from collections.abc import Callable, Iterable, Iterator, Sequence
from fractions import Fraction
from itertools import combinations

from tools import ROOT
from tools.bindings import by_python as model
from tools.bindings.by_python import Pair, Result

MASK = (1 << 64) - 1
FACTOR = 0x517CC1B727220A95
# What is counted if a number does not fit, or if there is no fraction: a sign and a magnitude.
BEYOND = (True, 0)
NOT_FITTING = (True, (1 << 128) - 1)

Number = int | tuple[bool, int]
# those of a result. It has none if it is a status, or None
Numbers = tuple[Number, ...] | int | None
Line = tuple[str | int, str, "Answered"]


class Answered:
    """How many inputs have a result, and the checksum over both, as src/checksum.rs computes it."""

    def __init__(self, found: Iterable[tuple[Sequence[int], Numbers]]) -> None:
        self.count = self.checksum = 0
        for arguments, result in found:
            if isinstance(result, tuple):
                self.count += 1
                for n in (*arguments, *result):
                    negative, magnitude = n if isinstance(n, tuple) else (n < 0, abs(n))
                    for part in (magnitude & MASK, magnitude >> 64, negative):
                        self.checksum = (((self.checksum << 5 & MASK | self.checksum >> 59) ^ part)
                                         * FACTOR & MASK)


def mixed(index: int) -> int:
    """A number of the generator SplitMix64."""
    z = index * 0x9E3779B97F4A7C15 & MASK
    z = (z ^ z >> 30) * 0xBF58476D1CE4E5B9 & MASK
    z = (z ^ z >> 27) * 0x94D049BB133111EB & MASK
    return z ^ z >> 31


class Shape:
    """A type's number of bits and its ends, and its inputs, as src/inputs.rs computes them. No
    input is below the least one, which i128 has one above its end."""

    def __init__(self, width: int, least: int, greatest: int, end: int) -> None:
        self.width, self.least, self.greatest = width, least, greatest
        self.bounds = end, greatest

    def edge(self, negative: bool, place: int, kind: int) -> int:
        bit = min(place * self.width // 8, self.width - 1)
        end = -self.least if negative else self.greatest
        return [(1 << bit) - 1, 1 << bit, (1 << bit) + 1, max(end - place, 0)][kind]

    def fibonacci(self, k: int) -> int:
        number, following = 0, 1
        for _ in range({128: 139, 64: 46}.get(self.width, 0) + k):
            number, following = following, number + following
        return number

    def random(self, index: int) -> tuple[bool, int]:
        length = index % self.width + 1
        bits = mixed(2 * index) << 64 | mixed(2 * index + 1) | 1 << 127
        return index // self.width % 2 == 1, bits >> 128 - length

    def number(self, index: int) -> int | None:
        """The number at an index, or None if the type does not have it."""
        half, odd = divmod(index, 2)
        if half < 36:
            negative, magnitude = odd == 1, self.edge(odd == 1, half // 4, half % 4)
        elif half < 84:
            negative, magnitude = odd == 1, self.fibonacci(half - 36)
        else:
            negative, magnitude = self.random(index)
        n = -magnitude if negative else magnitude
        return n if self.least <= n <= self.greatest else None

    def spread(self, count: int) -> list[int]:
        found = (self.number(7 * place) for place in range(count))
        return [n for n in found if n is not None]


def signed(width: int) -> Shape:
    return Shape(width, -(1 << width - 1), (1 << width - 1) - 1, -(1 << width - 1))


TYPES = {"I16": signed(16), "I64": signed(64), "U64": Shape(64, 0, (1 << 64) - 1, 0),
         "I128": Shape(128, 1 - (1 << 127), (1 << 127) - 1, -(1 << 127)),
         "U128": Shape(128, 0, (1 << 128) - 1, 0)}

# By table, each call and what makes its result: a name in by_python.py, and letters for the
# arguments.
CALLS = tomllib.loads((ROOT / "compare/libraries.toml").read_text())
NUMBERS = "abms"                                # two numbers, a modulus and a size
FRACTIONS = "xynz"                              # two fractions, a number and 0
DATES = "dne"                                   # a date, a number and the date of that day


def model_of(given: str, words: str) -> Callable[..., Result]:
    """What makes the result of the ends of the type and of the arguments of these letters."""
    name, *letters = words.split()
    return lambda ends, *arguments: model.RESULTS[name](ends,
                                                        *[arguments[given.index(letter)]
                                                          for letter in letters])


def next_common_solution(ends: Pair, a: int, m: int, b: int, n: int) -> Numbers:
    found = model.RESULTS["next_common_solution"](ends, b, a, m, b, n)
    return (BEYOND,) if found == model.NOT_FITTING else found


def of_one_modulus(shape: Shape, words: str) -> Answered:
    numbers, call = shape.spread(36), model_of(NUMBERS, words)
    return Answered(((a, b, m), call(shape.bounds, a, b, m, abs(b))) for a in numbers
                    for b in numbers for m in numbers if m > 0)


def of_two_moduli(shape: Shape, call: Callable[..., Numbers]) -> Answered:
    numbers = shape.spread(24)
    moduli = [m for m in numbers if m > 0]
    return Answered(((a, m, b, n), call(shape.bounds, a, m, b, n)) for a in numbers for m in moduli
                    for b in numbers for n in moduli)


def residue_lines(calls: str, types: Iterable[str] = TYPES) -> Iterator[Line]:
    for name in types:
        for call, words in CALLS[calls].items():
            yield name, call, of_one_modulus(TYPES[name], words)
        if calls == "modular":
            yield (name, "ChineseRemainder",
                   of_two_moduli(TYPES[name], model.RESULTS["chinese_remainder"]))
            yield name, "NextSolution", of_two_moduli(TYPES[name], next_common_solution)


# Of these, that there is no result is counted too.
COUNTED = {"Negation", "Magnitude", "Reciprocal", "Power", "Sum", "Difference", "Product",
           "Quotient"}


def of_fractions(call: str, words: str,
                 inputs: Iterable[tuple[tuple[int, ...], Pair, Pair, int]]) -> Answered:
    """What is counted of a call: its results, or why there are none. A sign is a fraction."""
    models = [model_of(FRACTIONS, each) for each in words.split(",")]

    def counted(x: Pair, y: Pair, n: int) -> Numbers:
        if call == "Power" and not -(1 << 31) <= n < 1 << 31:
            return None
        found: list[int] = []
        for made in models:
            part = made(model.I64, x, y, n, (0, 1))
            if isinstance(part, int):
                return (BEYOND if part == model.ZERO_DENOMINATOR
                        else NOT_FITTING,) if call in COUNTED else None
            found += part
        return (*found, *[1] * (call == "Sign"))
    return Answered((arguments, counted(x, y, n)) for arguments, x, y, n in inputs)


def fractions_of(numbers: Sequence[int]) -> list[Pair]:
    """The parts of the fraction of each two of the numbers, where there is one whose parts fit."""
    found = (Fraction(num, den).as_integer_ratio() for num in numbers for den in numbers if den)
    return [x for x in found if isinstance(model.fitting(model.I64, *x), tuple)]


def fraction_lines() -> Iterator[Line]:
    for bits in (16, 32, 64):
        numbers = signed(bits).spread(52)
        all_fractions, few = fractions_of(numbers), fractions_of(signed(bits).spread(16))
        for call, words in CALLS["fraction"].items():
            yield bits, call, of_fractions(call, words, ((x, x, x, 0) for x in all_fractions))
        for call, words in CALLS["fraction_and_number"].items():
            yield (bits, call,
                   of_fractions(call, words, (((*x, n), x, x, n) for x in few for n in numbers)))
        for call, words in CALLS["two_fractions"].items():
            yield (bits, call,
                   of_fractions(call, words, (((*x, *y), x, y, 0) for x in few for y in few)))


def day(n: int) -> Numbers:
    own = model.of_number(n)
    return (*own, own.near().timetuple().tm_yday, *own.iso_week(), n, own.near().isoweekday(), *own,
            *own)


def places(n: int, month: int, weekday: int) -> tuple[int, ...]:
    """The days of the month that have the day of the week, the last one first, and 0 for the fifth
    if there is none."""
    days = [date.day for date in model.weekdays(n, month, weekday)]
    return (days[-1], *days, *[0] * (5 - len(days)))


OF_NUMBER: dict[str, Callable[[int], Numbers]] = {
    "Day": day,
    "Year": lambda n: (model.is_leap(n), 365 + model.is_leap(n), model.weeks_in(n),
                       *model.easter(n)),
    "Months": lambda n: tuple(model.days_in(n, month) for month in range(1, 13)),
    "WeekdaysOfMonth": lambda n: tuple(d for month in range(1, 13)
                                       for d in places(n, month, month % 7 + 1)),
    "NearestWeekdays": lambda n: model.fitting(model.I64, *(
        next(d for d in range(n, n + 7 * step, step) if (d + 3) % 7 + 1 == weekday)
        for weekday in range(1, 8) for step in (1, -1))),
}


def date_lines() -> Iterator[Line]:
    for bits in (16, 32, 64):
        for call, of_one in OF_NUMBER.items():
            yield bits, call, Answered(((n,), of_one(n)) for n in signed(bits).spread(2048))
        numbers = signed(bits).spread(128)
        for call, words in CALLS["dates"].items():
            made = model_of(DATES, words)
            yield (bits, call,
                   Answered(((d, n), made(model.I64, model.of_number(d), n, model.of_number(n)))
                            for d in numbers for n in numbers))


def ranked_choices() -> Iterator[tuple[Sequence[int], Numbers]]:
    """The choices of the numbers below n, those with the smaller last number first."""
    for n in range(15):
        for k in range(n + 1):
            choices = sorted(combinations(range(n), k), key=lambda choice: choice[::-1])
            yield from (((rank,), choice) for rank, choice in enumerate(choices))


def table(name: str, doc: str, calls: str, lines: Iterable[Line]) -> str:
    """The lines of a library: of each call what is found at each type or number of bits."""
    found: dict[str, list[str]] = {}
    for _, call, answered in lines:
        found.setdefault(call, []).append(f"{answered.count} {answered.checksum}")
    places = max(map(len, found.values()))
    text = (f"\n/// {doc}\npub(crate) const {name}: [Line<{calls}, {places}>; {len(found)}] = "
            f"lines! {{ {calls}:\n")
    for call, results in found.items():
        rows = [", ".join(results[first:first + 4]) for first in range(0, len(results), 4)]
        text += f"    {call}: " + ",\n        ".join(rows) + ";\n"
    return text + "};\n"


def constant(name: str, doc: str, answered: Answered) -> str:
    """What is found of one call."""
    return (f"\n/// {doc}\npub(crate) const {name}: Answered = Answered({answered.count}, "
            f"Checksum({answered.checksum}));\n")


def made() -> dict[str, str]:
    """The file."""
    days = Answered(((n,), day(n)) for n in range(-719162, 2932897, 11))
    text = ((ROOT / "compare/libraries_head.rattle").read_text()
            + table("RESIDUES", "At `i16`, `i64`, `u64`, `i128` and `u128`.", "Residues",
                    residue_lines("modular"))
            + "\n/// The numbers of bits of the lines below, and their places.\n"
            + "pub(crate) const BITS: [(u32, usize); 3] = [(16, 0), (32, 1), (64, 2)];\n"
            + table("FRACTIONS", "At 16, 32 and 64 bits.", "Fractions", fraction_lines())
            + table("DATES", "At 16, 32 and 64 bits.", "Dates", date_lines())
            + constant("ELEVENTH_DAYS", "Each eleventh day from year 1 to year 9999.", days)
            + table("MODELS", "At `i64` and `u64`.", "Models",
                    residue_lines("applied", ("I64", "U64")))
            + constant("CHOICES", "All choices of the numbers below each number up to 14.",
                       Answered(ranked_choices())))
    return {'crates/replay/src/tests/libraries.rt': text}
