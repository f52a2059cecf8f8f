"""Netlists of one resistor, whose value is any short string, or a long one: values.py FOLDER [SEED] writes 0.net, 1.net and so on to FOLDER, the lines that
`netlist` has to print of them all to `expected`, and prints how many they are.

Short ones are all strings of up to five of the signs of a value and two digits. What a value is and comes to is left to Python's own parser, in which // binds
and groups as || does, and to its arithmetic.
"""

import ast
import functools
import itertools
import pathlib
import random
import re
import sys

import parts
import describe

SIGNS = "10+|() "
LONG = 3000
NUMBERS = "0", "1", "2", "3", "6", "0010", "999", "65536", "2000000000", "2000000001", "2147483648", "4294967294", "4294967295", "4294967296", "1" + "0" * 40
PLAIN = ast.Expression, ast.BinOp, ast.Add, ast.FloorDiv, ast.Constant


class Stage(Exception):
    """A value that is 0 or above 4,294,967,295."""


def parsed(text):
    """The value as Python reads it, or None where it is none. A sign without a value before it, a call and () are Python's alone."""
    opened = itertools.accumulate({"(": 1, ")": -1}.get(sign, 0) for sign in text)
    if not re.fullmatch(r"([\d+() \t\r]|\|\|)*", text) or max(opened, default=0) > 16:
        return None
    # Zeros in front of a number, of which Python takes none, would also be too many digits for it.
    python = re.sub(r"0*(\d+)", r"\1", text).replace("||", "//").replace("\r", " ").strip()
    try:
        tree = ast.parse(python, mode="eval")
    except SyntaxError:
        return None
    return tree.body if all(isinstance(node, PLAIN) for node in ast.walk(tree)) else None


def worth(node):
    if isinstance(node, ast.Constant):
        found = node.value
    else:
        left, right = worth(node.left), worth(node.right)
        found = left + right if isinstance(node.op, ast.Add) else left * right // (left + right)
    if not 1 <= found <= 4294967295:
        raise Stage
    return found


@functools.cache
def resistor(ohms):
    return parts.report(describe.Build([["version", "2"], ["out", "2"], ["R1", "1", "2", str(ohms)]]).image)


def expected(text):
    tree = parsed(text)
    if tree is None:
        return "refused 14 line 1\n"
    try:
        return resistor(worth(tree))
    except Stage:
        return "refused 15 line 1\n"


def number(dice, odd):
    return dice.choice(NUMBERS) if dice.random() < odd else str(dice.randint(100, 10 ** dice.randint(3, 7)))


def value(dice, odd, depth):
    """A value with so many brackets about its innermost number, and others beside them. Odd numbers are rare, or every value would have a stage that is none."""
    found = f"({value(dice, odd, depth - 1)})" if depth else number(dice, odd)
    for _ in range(dice.choice((0, 1, 1, 2))):
        beside = value(dice, odd, dice.randrange(min(depth, 3))) if depth else number(dice, odd)
        joined = found, dice.choice(("+", "||")), beside
        found = dice.choice(("", "", " ", "\t")).join(dice.choice((joined, joined[::-1])))
    return found


def long(dice):
    """A value of some depth, up to the most and past it; now and then one of its bytes is lost, doubled or another."""
    found = value(dice, dice.choice((0, 0.02, 0.2)), dice.choice((0, 1, 2, 3, 4, 15, 16, 17)))
    if dice.random() < 0.2:
        at = dice.randrange(len(found))
        found = found[:at] + dice.choice(("", found[at] * 2, dice.choice(SIGNS + "\r-.k"))) + found[at + 1:]
    return found


def main(folder, seed=1):
    dice = random.Random(int(seed))
    short = ("".join(signs) for length in range(1, 6) for signs in itertools.product(SIGNS, repeat=length))
    made = [*short, *(long(dice) for _ in range(LONG))]
    folder = pathlib.Path(folder)
    for index, text in enumerate(made):
        (folder / f"{index}.net").write_bytes(f"R1 1 2 {text}\ndrives 1\noutput 2\nrate 48000\n".encode())
    (folder / "expected").write_text("".join(map(expected, made)))
    print(len(made))


if __name__ == "__main__":
    if len(sys.argv) not in (2, 3):
        sys.exit(__doc__)
    main(*sys.argv[1:])
