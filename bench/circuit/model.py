#!/usr/bin/env python3
"""What crates/bench_circuit has to print, from documents 01 and 02 alone: python3 model.py CASES.rt > stdout

Reads the calls in src/cases.rt in the order in which they stand there, and shares nothing with the proved crates. A curve's current is the
integral of its slope from zero, summed stretch by stretch; a bound is searched for from a quotient and then tested. Images are read as
bench/image does."""
import pathlib
import re
import sys

sys.path.insert(0, str(pathlib.Path(__file__).parent.parent / "image"))
import layout  # noqa: E402

M, STORED, TOP = 2**25, 2**57, 2**64


class Circuit:
    """An accepted image's circuit; `ok` is whether it is one."""

    def __init__(self, image):
        self.ok = layout.number(image) == 0
        if not self.ok:
            return
        trailer = layout.trailer(image)
        self.leak = layout.leak(trailer.version)
        self.nodes, self.driven = trailer.nodes, trailer.driven
        self.curves = [(c.slopes, c.points) for c in layout.curves(image)]
        self.elements = [(e.kind, e.p, e.q, e.curve, layout.conductance(e, trailer.rate)) for e in layout.elements(image)]

    def curve(self, k, v):
        """The slope integrated from 0 to v."""
        slopes, points = self.curves[k]
        edges = [-10**30] + list(points) + [10**30]
        low, high = min(0, v), max(0, v)
        area = sum(s * max(0, min(high, b) - max(low, a)) for s, a, b in zip(slopes, edges, edges[1:]))
        return area if v >= 0 else -area

    def flow(self, j, volts, stored):
        kind, p, q, k, g = self.elements[j]
        v = volts[p] - volts[q]
        if kind == 4:
            return self.curve(k, v)
        return g * v - (stored[j] if kind in (2, 3) else 0)

    def net(self, i, volts, stored):
        total = self.leak * volts[i]
        for j, (_, p, q, _, _) in enumerate(self.elements):
            total += self.flow(j, volts, stored) * ((p == i) - (q == i))
        return total

    def held(self, i):
        return self.leak + sum(g for kind, p, q, _, g in self.elements if kind != 4 and i in (p, q) and (p + q - i) <= self.driven)

    def steepest(self, i):
        return self.leak + sum(max(self.curves[k][0]) if kind == 4 else g for kind, p, q, k, g in self.elements if i in (p, q))

    def bound(self, e):
        free = range(self.driven + 1, self.nodes + 1)
        if not free:
            return None
        b = max((self.steepest(i) + e) // self.held(i) for i in free)
        while any(b * self.held(i) < self.steepest(i) + e for i in free):
            b += 1
        return b if b < TOP else None

    def advance(self, volts, stored):
        new = list(stored)
        for j, (kind, p, q, _, g) in enumerate(self.elements):
            v = volts[p] - volts[q]
            new[j] = {1: 0, 2: 2 * g * v - stored[j], 3: stored[j] - 2 * g * v, 4: 0}[kind]
        return new if all(abs(x) <= STORED for x in new) else None


def row(*numbers):
    return ''.join(' %d' % n for n in numbers)


def circuit(image):
    c = Circuit(image)
    if not c.ok:
        return print('  the image is refused')
    every = range(c.nodes + 1)
    print('  held' + row(*map(c.held, every)) + ' steepest' + row(*map(c.steepest, every)))
    bounds = [c.bound(e) for e in (0, 1, 10**12, TOP - 2, TOP - 1)]
    print('  B' + ''.join(' none' if b is None else ' %d' % b for b in bounds))


def sample(image, volts, stored):
    c = Circuit(image)
    volts, stored = (volts + [0] * 16)[:16], (stored + [0] * 32)[:32]
    if not c.ok:
        return print('  the image is refused')
    if any(abs(v) > M for v in volts):
        return print('  a voltage is out of range')
    if any(abs(x) > STORED for x in stored):
        return print('  a stored current is beyond its limit')
    n = len(c.elements)
    line = '  flow' + row(*(c.flow(j, volts, stored) for j in range(n)))
    nets = row(*(c.net(i, volts, stored) for i in range(c.nodes + 1)))
    line += ' net' + nets + ' moved' + nets
    new = c.advance(volts, stored)
    after = stored if new is None else new
    print(line + (' beyond' if new is None else ' stored') + row(*after[:n + 1]))


def step(x):
    return (x * 1103515245 + 12345) % 2**31


def signed(x, n):
    return -n if x // 65536 % 2 == 1 else n


def noise(image, n, rounds):
    x = rounds
    for _ in range(rounds):
        x = step(x)
        volts, stored, s = [0], [], x
        for _ in range(15):
            s = step(s)
            volts.append(signed(s, step(s) % (M + 1)))
        s = step(x)
        for j in range(32):
            s = step(s)
            stored.append(signed(s, step(s) * 2**26 + step(step(s)) % 2**26) if j < n else 0)
        sample(image, volts, stored)


def across(image, v):
    n = abs(v)
    a, b = n // 2, n - n // 2
    sample(image, [0, a, -b] if v >= 0 else [0, -a, b], [])


CALL = re.compile(r'\b(hex|circuit|sample|filled|around|noise)\(((?:[^()"]|"[^"]*")*)\)', re.S)


def main(path):
    text = re.sub(r'^\s*//.*$', '', open(path).read(), flags=re.M)
    text = text[text.index('fn divider'):text.index('pub fn all')]
    image = None
    for name, words in CALL.findall(text):
        strings = re.findall(r'b"([^"]*)"', words)
        if name == 'hex':
            image = bytes.fromhex(strings[0])
            continue
        lists = [[int(n) for n in s.split()] for s in strings] if name != 'circuit' else []
        plain = [int(w) for w in re.sub(r'b"[^"]*"', '', words).replace(' ', '').replace('\n', '').split(',') if w.lstrip('-').isdigit()]
        if name == 'circuit':
            print(strings[0])
            circuit(image)
        elif name == 'sample':
            sample(image, lists[0], lists[1])
        elif name == 'filled':
            sample(image, lists[0], [plain[0]] * 32)
        elif name == 'around':
            for v in lists[0]:
                across(image, v)
        elif name == 'noise':
            noise(image, *plain)


main(sys.argv[1])
