"""Random parts: such as are accepted, such as may break a rule, and anything where no writer looks in either; and versions that a writer is given."""

import fields
import record
from record import Curve

import layout


def any_element(dice):
    return layout.Element(*dice.randbytes(4), dice.getrandbits(32))


def any_curve(dice):
    return Curve(dice.randrange(256), tuple(dice.getrandbits(32) for _ in range(17)), tuple(dice.getrandbits(32) - 2**31 for _ in range(16)))


def past_size(dice, curve):
    """A curve with anything past its own slopes and breakpoints."""
    other = any_curve(dice)
    return Curve(curve.count, curve.slopes[:curve.count + 1] + other.slopes[curve.count + 1:], curve.points[:curve.count] + other.points[curve.count:])


def unseen(dice, parts):
    """Parts with anything where no writer looks: past their counts, and for their own version."""
    elements = parts.elements[:parts.element_count] + tuple(any_element(dice) for _ in parts.elements[parts.element_count:])
    curves = [past_size(dice, curve) for curve in parts.curves[:parts.curve_count]] + [any_curve(dice) for _ in parts.curves[parts.curve_count:]]
    return parts._replace(version=dice.randrange(256), elements=elements, curves=tuple(curves))


def element(dice, nodes, curves, rate):
    """Of any kind, with a conductance within its limits."""
    p, q = dice.sample(range(nodes + 1), 2)
    kind = dice.randint(layout.RESISTOR, layout.DIODE if curves else layout.INDUCTOR)
    if kind == layout.DIODE:
        return layout.Element(kind, p, q, dice.randrange(curves), 0)
    while True:
        found = layout.Element(kind, p, q, 0, dice.randint(1, 2 ** dice.randint(1, 32) - 1))
        if 1 <= layout.conductance(found, rate) <= 2**30:
            return found


def curve(dice):
    count = dice.choice((1, 2, 3, 16, dice.randint(1, 16)))
    slopes = [dice.randint(0, 2 ** dice.randint(0, 30)) for _ in range(count + 1)]
    return record.curve(count, slopes, sorted(dice.sample(range(-2**26, 2**26 + 1), count)))


def accepted(dice):
    """Parts that break no rule."""
    nodes, rate = dice.choice((1, 2, 15, dice.randint(1, 15))), dice.choice((8000, 48000, 192000, dice.randint(8000, 192000)))
    curves = [curve(dice) for _ in range(dice.choice((0, 1, 2, 8, dice.randint(0, 8))))]
    elements = [element(dice, nodes, len(curves), rate) for _ in range(dice.choice((1, 2, 32, dice.randint(1, 32))))]
    return record.parts((0, nodes, dice.randint(0, nodes), dice.randint(1, nodes), rate), elements, curves)


def version(dice):
    """A version for a writer, or none; now and then one that is refused."""
    return dice.choice((None, *record.VERSIONS)) if dice.random() < 0.9 else dice.choice((0, 3, 255, dice.randrange(256)))


def broken(dice, parts):
    """The same with one to three fields anything or at an edge."""
    named = {}
    for path, values in fields.places(parts):
        named.setdefault([word for word in path if isinstance(word, str)][-1], []).append((path, values))
    # Fields of all names are as likely, or most would be slopes; but of an element's values few lead to a conductance outside its limits.
    likely = [5 if name == "value" else 1 for name in named]
    for alike in dice.choices(list(named.values()), likely, k=dice.choice((1, 1, 2, 3))):
        path, values = dice.choice(alike)
        parts = record.put(parts, path, dice.choice(values))
    return parts
