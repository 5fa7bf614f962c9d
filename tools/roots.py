#!/usr/bin/env python3
"""Writes crates/roots/stdin, calls of the float helpers with their answers as crates/roots/src/row.rt says, and
crates/roots/stdout, what the program `roots` is to print of them.

    tools/roots.py

First the values that the rules name, for each helper, then drawn square roots, whose answers are the machine's own,
by math.sqrt, and last rows that are wrong on purpose, each a right one with a change in one place. The rows are always
the same: no clock and no library's random numbers go into them. A NaN is written 7FF8000000000000, whatever its
pattern was.
"""
import math
import struct
from pathlib import Path

FULL = (1 << 64) - 1
LAST = 0x7FEF_FFFF_FFFF_FFFF
INFINITY = 0x7FF0_0000_0000_0000
SIGN = 1 << 63
NAN = 0x7FF8_0000_0000_0000
ZERO, LEAST, ONE, TWO = 0, 1, 0x3FF0_0000_0000_0000, 0x4000_0000_0000_0000
NAMED = {
    "m": [(ZERO, ZERO), (SIGN, ZERO), (ONE, ONE), (SIGN + ONE, ONE), (SIGN + LEAST, LEAST), (INFINITY, INFINITY),
          (SIGN + INFINITY, INFINITY), (NAN, NAN)],
    "s": [(ZERO, ONE), (SIGN, SIGN + ONE), (LEAST, ONE), (SIGN + LEAST, SIGN + ONE), (TWO, ONE), (INFINITY, ONE),
          (SIGN + INFINITY, SIGN + ONE), (NAN, NAN)],
    "<": [(ONE, TWO, ONE), (TWO, ONE, ONE), (SIGN + ONE, LEAST, SIGN + ONE), (SIGN + INFINITY, ONE, SIGN + INFINITY),
          (INFINITY, LAST, LAST), (NAN, ONE, ONE), (ONE, NAN, ONE), (NAN, INFINITY, INFINITY), (NAN, NAN, NAN),
          (ZERO, SIGN, ZERO), (SIGN, ZERO, SIGN)],
    ">": [(ONE, TWO, TWO), (TWO, ONE, TWO), (SIGN + ONE, LEAST, LEAST), (SIGN + INFINITY, ONE, ONE),
          (INFINITY, LAST, INFINITY), (NAN, ONE, ONE), (ONE, NAN, ONE), (NAN, SIGN + INFINITY, SIGN + INFINITY),
          (NAN, NAN, NAN), (ZERO, SIGN, ZERO), (SIGN, ZERO, SIGN)],
    "r": [(SIGN, SIGN), (LEAST, 0x1E60_0000_0000_0000), (TWO, 0x3FF6_A09E_667F_3BCD), (ONE + 1, ONE),
          (LAST, 0x5FEF_FFFF_FFFF_FFFF), (ZERO, ZERO), (SIGN + LEAST, NAN), (SIGN + ONE, NAN), (SIGN + INFINITY, NAN),
          (INFINITY, INFINITY), (NAN, NAN)],
}
state = 20


def draw(below):
    """A number below `below`, by the splitmix64 generator."""
    global state
    state = (state + 0x9E37_79B9_7F4A_7C15) & FULL
    z = state
    z = ((z ^ (z >> 30)) * 0xBF58_476D_1CE4_E5B9) & FULL
    z = ((z ^ (z >> 27)) * 0x94D0_49BB_1331_11EB) & FULL
    return (z ^ (z >> 31)) % below


def pattern(x):
    return struct.unpack(">Q", struct.pack(">d", x))[0]


def value(b):
    return struct.unpack(">d", struct.pack(">Q", b))[0]


def answer(b):
    x = value(b)
    return NAN if math.isnan(x) or x < 0 else pattern(math.sqrt(x))


def odd_root(c, j):
    """An odd u with u * u = c modulo 2^j, for a c that is 1 modulo 8: one more digit of it a turn."""
    u = 1
    for k in range(3, j):
        if (u * u - c) >> k & 1:
            u += 1 << (k - 1)
    return u


def subnormals():
    yield from range(1, 41)
    yield from (0x000F_FFFF_FFFF_FFFF, 0x000F_FFFF_FFFF_FFFE, 0x0010_0000_0000_0000, 0x0010_0000_0000_0001)
    for size in range(1, 53):
        for _ in range(5):
            yield (1 << (size - 1)) + draw(1 << (size - 1))


def powers_of_two():
    for field in [*range(1, 2047, 16), 1022, 1023, 1024, 2045, 2046]:
        for near in (-1, 0, 1):
            yield (field << 52) + near
    for place in range(0, 52, 3):
        yield 1 << place


def squares():
    for size in range(2, 27):
        for _ in range(7):
            n = (1 << (size - 1)) + draw(1 << (size - 1))
            b = pattern(math.ldexp(float(n * n), 2 * draw(400) - 400))
            yield from (b - 1, b, b + 1)


def midpoints():
    """Doubles whose root is as near to a midpoint as a small whole number allows: 4 x is u * u - c, at some power of
    two, where u / 2 is a midpoint of two numbers of 53 digits."""
    for j, low, high in ((54, 1 << 106, 1 << 107), (55, 1 << 107, 1 << 108)):
        for step in range(-40, 40):
            c = 8 * step + 1
            u = odd_root(c, j)
            for w in (u, -u):
                for turn in (0, 1):
                    v = (w + (turn << (j - 1))) % (1 << j)
                    if low < v * v < high and (1 << 52) <= (v * v - c) >> j < (1 << 53):
                        yield pattern(math.ldexp(float((v * v - c) >> j), j - 2 - 106 + 2 * draw(500) - 500))
    for _ in range(100):
        u = (1 << 53) + 2 * draw(1 << 52) + 1
        b = pattern(float(u * u))
        yield from (b - 1, b, b + 1)


def others():
    yield from (0, SIGN, 1, SIGN + 1, LAST, SIGN + LAST, INFINITY, SIGN + INFINITY, NAN, SIGN + NAN)
    yield from (INFINITY + 1, SIGN + INFINITY + 1, FULL, LAST - 1, pattern(2.0), pattern(1.0) + 1)
    for _ in range(60):
        yield SIGN + draw(INFINITY)
    for _ in range(600):
        yield draw(1 << 64)
    for _ in range(300):
        yield draw(INFINITY)


def row(helper, x, y, answer):
    return f"{helper} {x:016X} {y:016X} = {answer:016X}\n"


def wrong_rows():
    """Each digit of an answer wrong once, for each helper; the helper; a number for a NaN and the other way round; each
    digit of x and of y; and each byte that gives a row its form. No NaN stands for another: all are alike."""
    for helper, other, x, y, answer in (("m", "s", SIGN + TWO, ZERO, TWO), ("s", "m", SIGN + TWO, ZERO, SIGN + ONE),
                                        ("<", ">", ONE, TWO, ONE), (">", "<", ONE, TWO, TWO),
                                        ("r", "m", TWO, ZERO, 0x3FF6_A09E_667F_3BCD)):
        for place in range(16):
            yield row(helper, x, y, answer ^ 1 << 4 * place)
        yield row(other, x, y, answer)
    yield row("r", ONE, ZERO, NAN)
    yield row("r", NAN, ZERO, INFINITY)
    for place in range(16):
        yield row("<", ONE ^ 1 << 4 * place, TWO, ONE)
        yield row(">", ONE, TWO ^ 1 << 4 * place, TWO)
    right = row(">", 0xA, 0xB, 0xB)
    for place in (17, 34, 53):
        yield right[:place] + right[place].lower() + right[place + 1:]
    for place in (0, 1, 18, 35, 37, 54):
        yield right[:place] + "x" + right[place + 1:]


lines = [row(helper, *(given if len(given) == 3 else (given[0], ZERO, given[1])))
         for helper, many in NAMED.items() for given in many]
print(f"{len(lines)} named")
for kind in (subnormals, powers_of_two, squares, midpoints, others):
    found = list(kind())
    print(f"{len(found)} {kind.__name__}")
    lines += [row("r", b, ZERO, answer(b)) for b in found]
wrong = [line[:36] + "!" + line[37:] for line in wrong_rows()]
print(f"{len(wrong)} wrong on purpose")
folder = Path(__file__).parent.parent.joinpath("crates/roots")
folder.joinpath("stdin").write_text("".join(lines + wrong))
many = len(wrong)
folder.joinpath("stdout").write_text(f"{len(lines)} rows compared, 0 differ; {many} wrong on purpose, {many} found\n")
