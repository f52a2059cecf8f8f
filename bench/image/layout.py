"""An image's bytes by documents 01 and 02: its fields, its conductances, and the number that refuses it. Shares nothing with the proved crates."""
import struct
from collections import namedtuple

TRAILER, ELEMENT = '<HHBBBBIBBH', '<BBBBI'
Trailer = namedtuple('Trailer', 'elements_back curves_back elements curves nodes driven rate output version size')
Element = namedtuple('Element', 'kind p q curve value')
Curve = namedtuple('Curve', 'at padding slopes points')
RESISTOR, CAPACITOR, INDUCTOR, DIODE = 1, 2, 3, 4
VERSIONS = 1, 2


def trailer(image):
    return Trailer(*struct.unpack(TRAILER, image[-16:]))


def in_version(image, version):
    """The same image but for its version, the third byte from its end."""
    return image[:-3] + bytes([version]) + image[-2:]


def elements(image):
    return [Element(*struct.unpack_from(ELEMENT, image, 8 * j)) for j in range(trailer(image).elements)]


def curves(image):
    """None unless every size is in range and the curves end where the trailer begins."""
    at, end, found = 8 * trailer(image).elements, len(image) - 16, []
    for _ in range(trailer(image).curves):
        m = image[at] if at < end else 0
        if not 1 <= m <= 16 or at + 8 + 8 * m > end:
            return None
        numbers = struct.unpack_from('<%dI%di' % (m + 1, m), image, at + 4)
        found.append(Curve(at, image[at + 1:at + 4], numbers[:m + 1], numbers[m + 1:]))
        at += 8 + 8 * m
    return found if at == end else None


def leak(version):
    """Of every free node, in nanosiemens: document 01's in version 1, and since then document 02's."""
    return 1 if version == 1 else 10


def nearest(a, b):
    """a / b to the nearest whole number, halves upward."""
    return (2 * a + b) // (2 * b)


def conductance(e, rate):
    """0 for a diode, which has none."""
    twice = 2 * e.value * rate
    a, b = {RESISTOR: (10**9, e.value), CAPACITOR: (twice, 1000), INDUCTOR: (10**15, twice), DIODE: (0, 1)}[e.kind]
    return nearest(a, b)


def trailer_fits(t):
    counts = 1 <= t.elements <= 32 and t.curves <= 8 and 1 <= t.nodes <= 15 and t.driven <= t.nodes
    return counts and 8000 <= t.rate <= 192000 and 1 <= t.output <= t.nodes and t.version in VERSIONS and t.size == 16


def curve_fits(c):
    rising = all(a < b for a, b in zip(c.points, c.points[1:]))
    return not any(c.padding) and max(c.slopes) <= 2**30 and rising and all(abs(b) <= 2**26 for b in c.points)


def element_fits(e, t):
    own = (e.curve < t.curves and e.value == 0) if e.kind == DIODE else (e.curve == 0 and e.value >= 1)
    return 1 <= e.kind <= 4 and own and e.p != e.q and max(e.p, e.q) <= t.nodes


def number(image):
    """The lowest of the numbers 1 to 6 that applies, or 0."""
    if not 24 <= len(image) <= 1360:
        return 1
    t, end = trailer(image), len(image) - 16
    if not trailer_fits(t):
        return 2
    if t.elements_back != end or 8 * t.elements + t.curves_back != end or curves(image) is None:
        return 3
    if not all(curve_fits(c) for c in curves(image)):
        return 4
    if not all(element_fits(e, t) for e in elements(image)):
        return 5
    return 0 if all(e.kind == DIODE or 1 <= conductance(e, t.rate) <= 2**30 for e in elements(image)) else 6
