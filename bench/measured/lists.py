"""Random texts of measured pairs: lists.py COUNT FOLDER [SEED] writes 0.pairs, 1.pairs and so on to FOLDER.

Over half are legal, of all scales, and an eighth is too steep; the others break a rule by one or have a line that is no pair, and may be too steep as well. The
first has 65,535 bytes, the most that a text may have, and the second one more.
"""

import pathlib
import random
import sys

MOST_VOLTS, MOST_CURRENT, MOST_SLOPE = 2**26, 2**56, 2**30
MOST_BYTES = 65535
BLANKS = b" ", b"\t", b"  ", b"\r", b" \t\r "


def voltages(dice):
    """Strictly rising from zero, to about some power of two or to it."""
    stretches = dice.choice((1, 2, 3, 16, dice.randint(1, 16)))
    top = max(2 ** dice.choice((26, dice.randint(0, 26), dice.randint(0, 26))), stretches)
    volts = sorted(dice.sample(range(1, top + 1), stretches))
    if dice.random() < 0.3:
        volts[-1] = top
    return [0, *volts]


def slopes(dice, count):
    """Each of a scale of its own, or all about the limit."""
    if dice.random() < 0.1:
        return [MOST_SLOPE - dice.choice((0, 0, 1)) for _ in range(count)]
    most = dice.randint(0, 30)
    return [dice.randint(0, 2 ** dice.randint(0, most)) for _ in range(count)]


def measured(dice, volts, rising):
    """Pairs at these voltages, their currents above a curve of these slopes by nothing, by some or by the most that it may fall short. So what a stretch
    has to make up for can take its slope to the limit and past it."""
    pairs, reached = [(0, 0)], 0
    for low, high, slope in zip(volts, volts[1:], rising):
        width = high - low
        reached += slope * width
        short = dice.choice((0, dice.randrange(width), width - 1))
        pairs.append((high, min(max(pairs[-1][1], reached + short), MOST_CURRENT)))
    return pairs


def broken(dice, pairs):
    """The same with one rule broken, by one where it has a limit."""
    (volts, current), at = pairs[-1], dice.randrange(1, len(pairs))
    too_many = [(volts + further, current) for further in range(1, 19 - len(pairs))]
    return dice.choice((
        [],
        pairs[:1],
        [*pairs, *too_many],
        [(dice.choice((-1, 1)), 0), *pairs[1:]],
        [(0, dice.choice((-1, 1))), *pairs[1:]],
        [*pairs[:at], (pairs[at - 1][0] - dice.choice((0, 1)), pairs[at][1]), *pairs[at + 1:]],
        [*pairs[:at], (pairs[at][0], pairs[at - 1][1] - 1), *pairs[at + 1:]],
        [*pairs[:-1], (MOST_VOLTS + 1, current)],
        [*pairs[:-1], (volts, MOST_CURRENT + 1)],
    ))


def word(dice, noise, number):
    """A number's digits; with noise, zeros in front of them, and -0."""
    sign = "-" if number < 0 or number == 0 and dice.random() < noise else ""
    zeros = "0" * dice.choice((1, 2, 30, 100)) if dice.random() < noise else ""
    return f"{sign}{zeros}{abs(number)}".encode()


def spoilt(dice, lines):
    """The same with one word changed: mostly to none that is a number, or to a number that might pass if it were cut to fewer bits."""
    at, place = dice.randrange(len(lines)), dice.randrange(2)
    old, odd = lines[at][place], bytes([dice.randrange(256)])
    far = int(old) + dice.choice((-1, 1)) * dice.choice((2**32, 2**63, 2**64, 2**128, 10**100))
    new = dice.choice((
        [], [old, old], [b"x"], [b"-"], [b"-" + old], [b"--" + old], [b"+" + old], [b"0x" + old], [odd + old],
        [old + b"-"], [old + b".0"], [old + b"e0"], [old + odd], [b"%d" % far], [b"%d" % far],
    ))
    return [*lines[:at], [*lines[at][:place], *new, *lines[at][place + 1:]], *lines[at + 1:]]


def line(dice, noise, words):
    """The words with blanks between them; with noise, other blanks, also at both ends, and a comment."""
    def blank(usual):
        return dice.choice(BLANKS) if dice.random() < noise else usual

    spaced = [blank(b" " if index else b"") + one for index, one in enumerate(words)]
    comment = b";" + dice.randbytes(dice.randrange(20)).replace(b"\n", b";")
    return b"".join([*spaced, blank(b""), comment if dice.random() < noise else b""])


def text(dice, noise, lines):
    """The lines; with noise, others without a word between them."""
    found = []
    for words in lines:
        while dice.random() < noise:
            found.append(line(dice, noise, []))
        found.append(line(dice, noise, words))
    end = dice.choice((b"\n", b"\r\n"))
    return end.join(found) + dice.choice((b"", end))


def anything(dice):
    kind, = dice.choices(("legal", "steep", "broken", "spoilt"), (56, 14, 16, 14))
    volts = voltages(dice)
    rising = slopes(dice, len(volts) - 1)
    if kind == "steep" or kind != "legal" and dice.random() < 0.2:
        rising[dice.randrange(len(rising))] = MOST_SLOPE + dice.choice((1, 1, 2 ** dice.randint(1, 20)))
    pairs = measured(dice, volts, rising)
    if kind == "broken":
        pairs = broken(dice, pairs)
    noise = dice.choice((0, 0.05, 0.3))
    lines = [[word(dice, noise, number) for number in pair] for pair in pairs]
    if kind == "spoilt":
        lines = spoilt(dice, lines)
    return text(dice, noise, lines)


def long(length, end):
    """A text of so many bytes, nearly all of them a comment before its end."""
    return b";" * (length - len(end) - 1) + b"\n" + end


def main(count, folder, seed=1):
    dice = random.Random(int(seed))
    for number in range(int(count)):
        made = long(MOST_BYTES + number, b"0 0\n5 10\n") if number < 2 else anything(dice)
        (pathlib.Path(folder) / f"{number}.pairs").write_bytes(made)


if __name__ == "__main__":
    if len(sys.argv) not in (3, 4):
        sys.exit(__doc__)
    main(*sys.argv[1:])
