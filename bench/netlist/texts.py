"""Netlists of all kinds: texts.py COUNT FOLDER [SEED] writes 0.net, 1.net and so on to FOLDER, and prints how many they are.

The first three are as large as a text may be: the divider of the examples with 65,535 bytes, and with one more, and line feeds alone. Then a small netlist has each
byte there is at each place of its first two lines. The last COUNT are random: half of them break a rule or come to a limit, and half of either are damaged.
"""

import itertools
import pathlib
import random
import sys

import values

BENCH = pathlib.Path(__file__).parent.parent
sys.path.insert(0, str(BENCH / "measured"))
import lists

DIVIDER = (BENCH.parent / "examples" / "divider.net").read_bytes()
SMALL = b"R1 1 2 7+5 ;c", b"curve 3 -4 5", b"drives 1\noutput 2\nrate 48000\n"
TELLING = b"0123456789 \t\r\n;()+|-.RCLDrk_\0\x0b\x7f\x80\xff"
KEYWORDS = "drives", "output", "rate"


def curve(dice, breakpoints):
    """Slopes of any size, and so many breakpoints that rise."""
    points = sorted(dice.sample(range(-2**26, 2**26 + 1), breakpoints))
    words = [str(dice.randint(0, 2 ** dice.randint(0, 30)))]
    for point in points:
        words += [str(point), str(dice.randint(0, 2 ** dice.randint(0, 30)))]
    return ["curve", *words]


def element(dice, nodes, curves, rate):
    """Of any kind, with a conductance within its limits."""
    kind = dice.choice("RRRCLD" if curves else "RRRCL")
    p, q = dice.sample(range(nodes + 1), 2)
    if kind == "R":
        value = values.value(dice, 0, dice.choice((0, 0, 1, 2))) if dice.random() < 0.4 else str(dice.randint(1, 2 * 10 ** dice.randint(1, 9)))
    elif kind == "C":
        value = str(dice.randint(1, min(2**32 - 1, 2**30 * 500 // rate)))
    elif kind == "L":
        value = str(dice.randint(10**15 // (2**31 * rate) + 1, 2**32 - 1))
    else:
        value = str(dice.randrange(curves))
    return [f"{kind}{dice.choice(('', '1', '12', '_a', 'Z9'))}", str(p), str(q), value]


def netlist(dice):
    """Words of the lines of a netlist that is accepted."""
    nodes, rate = dice.choice((1, 2, 3, 15, dice.randint(1, 15))), dice.choice((8000, 44100, 48000, 192000))
    curves = [curve(dice, dice.choice((1, 2, 16))) for _ in range(dice.choice((0, 0, 1, 2, 8)))]
    elements = [element(dice, nodes, len(curves), rate) for _ in range(dice.choice((1, 2, 3, 8, 32)))]
    highest = max(int(node) for words in elements for node in words[1:3])
    once = ["drives", str(dice.randint(0, highest))], ["output", str(dice.randint(1, highest))], ["rate", str(rate)]
    return [*elements, *curves, *once]


def again(lines, first, number):
    """The lines that begin with one of these letters over and over, until they are so many."""
    found = [words for words in lines if words[0][0] in first]
    more = itertools.cycle(found or [["curve", "0", "1", "2"]])
    return lines + list(itertools.islice(more, max(number - len(found), 0)))


def broken(dice, lines):
    """The same with one rule broken, or one number at its limit."""
    lines = [list(words) for words in lines]
    of = dice.choice(lines)
    if of[0] in KEYWORDS:
        of[1] = dice.choice(("0", "1", "15", "16", "255", "256", "258", "7999", "8000", "192001", "4294967296", "4295015296", "9" * 60))
    elif of[0] == "curve":
        at = dice.randrange(1, len(of))
        limit = 2**30 if at % 2 else 2**26
        of[at] = dice.choice((str(limit), str(limit + 1), str(2**32), "9" * 60, of[max(at - 2, 1)].strip("-"), *([] if at % 2 else ["-" + "9" * 60, str(-limit - 1)])))
        if dice.random() < 0.3:
            of[2:] = dice.choice(([], curve(dice, 17)[2:]))
    elif dice.random() < 0.2:
        return again(lines, *dice.choice((("RCLD", 32), ("RCLD", 33), ("c", 8), ("c", 9), ("RCLD", 40))))
    else:
        at = dice.choice((1, 2, 3, 3, 3))
        of[at] = dice.choice((values.number(dice, 1), of[1], str(dice.choice((0, 8, 15, 16, 256, 257, 2**64)))))
    return lines


def in_bytes(dice, made):
    """A byte is lost, comes in, or becomes another, of those that tell most often."""
    at, odd = dice.randrange(len(made)), bytes([dice.choice((dice.choice(TELLING), dice.randrange(256)))])
    return made[:at] + dice.choice((b"", odd, odd + made[at:at + 1], made[at:at + 1].swapcase())) + made[at + 1:]


def in_lines(dice, made):
    """A line is lost, doubled, swapped with another, or joined to the next."""
    lines = made.split(b"\n")
    at, other = dice.randrange(len(lines)), dice.randrange(len(lines))
    deed = dice.randrange(4)
    if deed == 0:
        del lines[at]
    elif deed == 1:
        lines.insert(other, lines[at])
    elif deed == 2:
        lines[at], lines[other] = lines[other], lines[at]
    else:
        lines[at:at + 2] = [b" ".join(lines[at:at + 2])]
    return b"\n".join(lines)


def anything(dice):
    lines = netlist(dice)
    if dice.random() < 0.5:
        lines = broken(dice, lines)
    if dice.random() < 0.3:
        dice.shuffle(lines)
    made = lists.text(dice, dice.choice((0, 0.05, 0.3)), [[word.encode() for word in words] for words in lines])
    while made and dice.random() < 0.5:
        made = dice.choice((in_bytes, in_bytes, in_lines))(dice, made)
    return made


def with_a_byte():
    """The small netlist with one byte more than it has, in all ways."""
    text = b"\n".join(SMALL)
    for at in range(len(text) - len(SMALL[-1])):
        for byte in range(256):
            yield text[:at] + bytes([byte]) + text[at:]


def main(count, folder, seed=1):
    dice = random.Random(int(seed))
    most = lists.MOST_BYTES
    largest = lists.long(most, DIVIDER), lists.long(most + 1, DIVIDER), b"\n" * most
    made = [*largest, *with_a_byte(), *(anything(dice) for _ in range(int(count)))]
    for number, text in enumerate(made):
        (pathlib.Path(folder) / f"{number}.net").write_bytes(text)
    print(len(made))


if __name__ == "__main__":
    if len(sys.argv) not in (3, 4):
        sys.exit(__doc__)
    main(*sys.argv[1:])
