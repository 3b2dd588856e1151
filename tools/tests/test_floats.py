"""Computes again what rust/tests/fractions_and_numbers.rs says that Python returns."""
import re
import struct
from fractions import Fraction
from pathlib import Path

ROWS = (Path(__file__).parents[2] / 'rust/tests/fractions_and_numbers.rs').read_text()
FITS = 2 ** 63


def bits(number: float) -> int:
    """The bits of a floating-point number."""
    return int(struct.unpack('<Q', struct.pack('<d', number))[0])


def numbers() -> 'list[int]':
    """The numbers that the test draws."""
    state, drawn = 1, []
    for _ in range(200_000):
        state = (state * 6364136223846793005 + 1442695040888963407) % 2 ** 64
        drawn.append(state >> (state >> 58))
    return drawn


def test_rows() -> None:
    rows = re.findall(r'\((\S+), (\S+), (0x[0-9a-f]{16})\)', ROWS)
    ends = {'i64::MAX': FITS - 1, 'i64::MIN': -FITS, 'i64::MAX - 1': FITS - 2}
    rows += re.findall(r'\((i64::MAX - 1), (\S+), (0x[0-9a-f]{16})\)', ROWS)
    assert len(rows) == 12
    for num, den, said in rows:
        parts = [ends[word] if word in ends else int(word) for word in (num, den)]
        assert bits(float(Fraction(*parts))) == int(said, 16)


def test_checksum() -> None:
    drawn, total = numbers(), 0
    for num, den in zip(drawn[::2], drawn[1::2]):
        if den >> 1:
            fraction = Fraction(num - 2 ** 64 if num >= FITS else num, den >> 1)
            total = (total * 31 + bits(float(fraction))) % 2 ** 64
    assert f'OF_PYTHON: u64 = {total:#x};' in ROWS
