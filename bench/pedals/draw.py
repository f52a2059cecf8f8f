"""Random pedals: draw.py COUNT FOLDER [SEED [SAMPLES]] writes 0.txt, 0.image and 0.drives, 1.txt and so on to FOLDER.

A pedal is stages in a row, as they are built: what couples them, filters, clippers, pots and traps, of parts that one can buy, with a few parts across.
The text is in the notation of bench/cases, so that a pedal which turns out hard can become a case. The same seed draws the same pedals.
"""

import math
import pathlib
import random
import sys

HERE = pathlib.Path(__file__).parent
sys.path.insert(0, str(HERE.parent / "cases"))

import describe  # noqa: E402

E12 = 10, 12, 15, 18, 22, 27, 33, 39, 47, 56, 68, 82
MOST_NODES, MOST_ELEMENTS = 15, 32
SAMPLES = 4096
# The end of a knob is where links of 1 ohm come from.
PLACES = 0, 0.05, 0.3, 0.5, 0.7, 0.95, 1
FILES = HERE.parent / "cases" / "circuits.txt", HERE.parent / "count" / "growth.txt", HERE / "diodes.txt"
CURVES = {line[1]: line for file in FILES for case in describe.read(file).values() for line in case if line[0] == "curve"}
# The first is in most pedals, as it is in most shops; growth.txt's shortest are no diodes.
DIODES = ["DIO"] * 4 + ["GER", "GER", "LED", "B16", "B8", "B4"]


class Pedal:
    """Parts and sources, drawn as it is made."""

    def __init__(self, dice):
        self.dice = dice
        self.driven = 2 if dice.random() < 0.12 else 1
        self.parts, self.top = [], self.driven
        # Of two draws the larger, since the hard ones are among the large.
        self.most = max(dice.randint(self.driven + 1, MOST_NODES) for _ in range(2))
        # A builder takes one kind of diode, and now and then a second one.
        self.diodes = dice.sample(DIODES, 2)
        at = self.through(1, dice.choice("RRRC"))
        # A stage has at most 8 parts, and the second drive's comes after them.
        while self.top < self.most and len(self.parts) + 8 < MOST_ELEMENTS:
            at = dice.choice(STAGES)(self, at)
        if self.driven == 2:
            self.put("R", 2, dice.randint(3, self.top), self.value(10**3, 10**6))
        for _ in range(dice.choice((0, 0, 1, 1, 2, 3))):
            self.across()
        if dice.random() < 0.7 and len(self.parts) < MOST_ELEMENTS:
            self.put("R", at, 0, self.value(10**4, 10**6))
        self.out = at

    def put(self, kind, p, q, value):
        self.parts.append((kind, p, q, value))

    def value(self, low, high):
        """A part's value in the E12 series, each decade as likely."""
        decade = 10 ** self.dice.randint(round(math.log10(low)), round(math.log10(high)) - 1)
        return self.dice.choice(E12) * decade // 10

    def resistor(self, p, q):
        self.put("R", p, q, self.value(10**2, 10**6))

    def capacitor(self, p, q):
        self.put("C", p, q, self.value(10**2, 10**6))

    def inductor(self, p, q):
        self.put("L", p, q, self.value(10**3, 10**6))

    def diode(self, p, q):
        self.put("D", p, q, self.diodes[self.dice.random() < 0.1])

    def node(self):
        self.top += 1
        return self.top

    def one(self, kind, p, q):
        {"R": self.resistor, "C": self.capacitor, "L": self.inductor, "D": self.diode}[kind](p, q)

    def through(self, at, kinds):
        """A new node behind parts of these kinds in parallel."""
        new = self.node()
        for kind in kinds:
            self.one(kind, at, new)
        return new

    def in_row(self, p, q, kinds):
        """Parts in a row from p to q, as many as there are nodes left for."""
        for kind in kinds[:min(len(kinds) - 1, self.most - self.top)]:
            new = self.node()
            self.one(kind, p, new)
            p = new
        self.one(kinds[-1], p, q)

    def coupled(self, at):
        """A capacitor and, mostly, what its far side is held by."""
        new = self.node()
        self.put("C", at, new, self.value(10**3, 10**7))
        if self.dice.random() < 0.7:
            self.put("R", new, 0, self.value(10**4, 10**6) * self.dice.choice((1, 10)))
        return new

    def filtered(self, at):
        """Series and shunt, as a low or high pass."""
        new = self.through(at, self.dice.choice(("R", "R", "C", "L", "RC")))
        self.one(self.dice.choice("RCC"), new, 0)
        return new

    def clipped(self, at):
        """Diodes to ground behind a resistor: one way or both, so many in a row."""
        new = self.through(at, "R")
        ways = self.dice.choice((("up", "down"), ("up", "down"), ("up", "down"), ("up",), ("down",)))
        for way in ways:
            row = "D" * self.dice.choice((1, 1, 1, 2, 2, 3, 6))
            self.in_row(*((new, 0) if way == "up" else (0, new)), row)
        if self.dice.random() < 0.6:
            self.capacitor(new, 0)
        return new

    def crossed(self, at):
        """Diodes in the signal's way, in both directions or with a resistor across."""
        new = self.through(at, self.dice.choice(("D", "DR", "R")))
        self.diode(new, at)
        self.resistor(new, 0)
        return new

    def rectified(self, at):
        """Four diodes in a ring: from one corner and the far one to those between them, which a resistor joins."""
        if self.most - self.top < 4:
            return self.crossed(at)
        near, far, low, high = self.through(at, "R"), self.node(), self.node(), self.node()
        for end in near, far:
            self.diode(low, end)
            self.diode(end, high)
        self.resistor(far, 0)
        self.one(self.dice.choice("RC"), low, high)
        return high

    def ladder(self, at):
        """Diodes in a row with a capacitor at each, as in a filter of diodes."""
        for _ in range(self.dice.randint(2, 4)):
            if self.top < self.most:
                at = self.through(at, "D")
                self.capacitor(at, 0)
        return at

    def turned(self, at):
        """A pot, its wiper the way on: all the way down nothing would be left to play."""
        new, whole = self.node(), self.dice.choice((10**4, 5 * 10**4, 10**5, 25 * 10**4, 5 * 10**5, 10**6))
        place = self.dice.choice(PLACES[1:])
        self.put("R", at, new, max(1, round(whole * (1 - place))))
        self.put("R", new, 0, max(1, round(whole * place)))
        if self.dice.random() < 0.3:
            self.capacitor(at, new)
        return new

    def toned(self, at):
        """Two ways with a pot between their ends."""
        if self.most - self.top < 3:
            return self.filtered(at)
        low, high, place = self.through(at, "R"), self.through(at, "C"), self.dice.choice(PLACES)
        self.capacitor(low, 0)
        self.resistor(high, 0)
        new, whole = self.node(), self.dice.choice((10**4, 10**5, 25 * 10**4))
        self.put("R", low, new, max(1, round(whole * (1 - place))))
        self.put("R", new, high, max(1, round(whole * place)))
        return new

    def trapped(self, at):
        """An inductor and a capacitor to ground, in a row or side by side."""
        new = self.through(at, "R")
        if self.dice.random() < 0.5:
            self.inductor(new, 0)
            self.capacitor(new, 0)
        else:
            self.in_row(new, 0, self.dice.choice(("LC", "LRC", "CL")))
        return new

    def across(self):
        """A part between any two nodes that are not both fixed, if there is room for it."""
        if len(self.parts) == MOST_ELEMENTS:
            return
        p = self.dice.randint(self.driven + 1, self.top)
        q = self.dice.choice([node for node in range(self.top + 1) if node != p])
        self.one(self.dice.choice("RRCCD"), p, q)


STAGES = (Pedal.coupled, Pedal.coupled, Pedal.filtered, Pedal.filtered, Pedal.clipped, Pedal.clipped, Pedal.clipped, Pedal.crossed, Pedal.rectified, Pedal.ladder, Pedal.turned,
          Pedal.turned, Pedal.toned, Pedal.trapped)


def between(dice, low, high):
    """A number between two, each octave as likely."""
    return low * (high / low) ** dice.random()


def sines(dice, node):
    """Two sines that come to a peak of 0.05 to 12 V together."""
    peak, share = between(dice, 50_000, 12_000_000), dice.uniform(0.2, 0.8)
    for height, low, high in (peak * share, 60, 1500), (peak * (1 - share), 200, 8000):
        yield f"drive {node} sine {round(height)} {round(between(dice, low, high))}"


def text(dice, samples):
    """The lines of one pedal."""
    pedal = Pedal(dice)
    # In every other pedal nodes are numbered as they come; else anyhow, since a number says nothing about where a node is.
    free = list(range(pedal.driven + 1, pedal.top + 1))
    if dice.random() < 0.5:
        dice.shuffle(free)
    names = [*range(pedal.driven + 1), *free]
    parts = dice.sample(pedal.parts, len(pedal.parts))
    for curve in dict.fromkeys(value for kind, _, _, value in parts if kind == "D"):
        yield " ".join(CURVES[curve])
    yield from (f"drives {pedal.driven}", f"nodes {pedal.top}", f"out {names[pedal.out]}", f"samples {samples}")
    for number, (kind, p, q, value) in enumerate(parts, 1):
        yield f"{kind}{number} {names[p]} {names[q]} {value}"
    yield from sines(dice, 1)
    if pedal.driven == 2:
        # A battery, or another signal.
        yield from ["drive 2 step 9000000 0"] if dice.random() < 0.5 else sines(dice, 2)
    # Last, so that all else of a pedal is what it was when there was but one version.
    yield f"version {dice.choice((1, 2))}"


def main(count, folder, seed=1, samples=SAMPLES):
    folder = pathlib.Path(folder)
    for k in range(int(count)):
        # Each pedal has dice of its own, so that it is the same however many are drawn.
        lines = [f"case pedal_{seed}_{k}", *text(random.Random(f"{seed} {k}"), int(samples))]
        (folder / f"{k}.txt").write_text("\n".join(lines) + "\n")
        describe.Build([line.split() for line in lines[1:]]).write(folder / str(k))


if __name__ == "__main__":
    if not 3 <= len(sys.argv) <= 5:
        sys.exit(__doc__)
    main(*sys.argv[1:])
