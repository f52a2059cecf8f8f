#!/usr/bin/env python3
"""What crates/bench_image has to print, from documents 01 and 02 alone: python3 model.py crates/bench_image/src > crates/bench_image/stdout

Reads the table of changes in src/cases.rt, and shares nothing with the proved crates. The good images are packed from their parts, which
src/build.rt has as bytes; the damage goes by the row of numbers of src/damage.rt."""
import re
import struct
import sys

from layout import CAPACITOR, DIODE, ELEMENT, INDUCTOR, RESISTOR, TRAILER, conductance, curves, elements, leak, number, trailer


def packed(elements, curves, nodes, driven, rate, output, end=None):
    """An image; with an end, its curve bytes are cut or zeros added so that the trailer stands there."""
    body = b''.join(struct.pack(ELEMENT, *e) for e in elements)
    for slopes, points in curves:
        body += struct.pack('<I%dI%di' % (len(slopes), len(points)), len(points), *slopes, *points)
    body = body[:end].ljust(end or 0, b'\0')
    back = len(body), len(body) - 8 * len(elements)
    return body + struct.pack(TRAILER, *back, len(elements), len(curves), nodes, driven, rate, output, 1, 16)


def mixed(end=None):
    four = [(RESISTOR, 1, 2, 0, 1000), (CAPACITOR, 2, 0, 0, 10000), (INDUCTOR, 2, 3, 0, 1000), (DIODE, 3, 0, 1, 0)]
    return packed(four, [([0, 10**7], [600000]), ([5, 0, 2**30], [-2**26, 2**26])], 3, 1, 48000, 3, end)


ONE = [(RESISTOR, 1, 0, 0, 1000)]
MOST_ELEMENTS = [(RESISTOR, j % 15 + 1, 0, 0, 1000 + j) if j < 24 else (DIODE, 0, j % 15 + 1, j - 24, 0) for j in range(32)]
MOST_CURVES = [([1000 * k + j for j in range(16)] + [2**30], [1000 * j + k - 8000 for j in range(16)]) for k in range(8)]
EXAMPLE = packed([(RESISTOR, 1, 2, 0, 1000), (RESISTOR, 2, 0, 0, 1000)], [], 2, 1, 48000, 2)
MIXED, SMALLEST, LARGEST = mixed(), packed(ONE, [], 1, 0, 8000, 1), packed(MOST_ELEMENTS, MOST_CURVES, 15, 3, 192000, 15)


def changed(image, at, new):
    return image[:at] + new + image[at + len(new):]


def circuit(label, image):
    n, t = number(image), trailer(image)
    if n:
        return print(label, '%d:' % n, 0, 0, 0, 0, 0)
    print(label, '0:', leak(t.version), t.nodes, t.driven, t.output, t.elements)
    for e in elements(image):
        print('element', e.kind, e.p, e.q, conductance(e, t.rate), e.curve)
    for c in curves(image):
        print('curve at', c.at, 'of', 8 + 8 * len(c.points), 'slopes', *c.slopes, 'breakpoints', *c.points)


def table(text):
    """Three numbers at a time: what is done, where, and the value, as the comment above them says."""
    numbers = [int(n) for line in re.findall(r'^    ([\d, ]+),$', text, re.M) for n in line.split(',')]
    for what, at, value in zip(numbers[::3], numbers[1::3], numbers[2::3]):
        new = struct.pack('<I', value) if what in (2, 4) else bytes([value])
        if what == 0:
            label, image = [('example:', EXAMPLE), ('mixed:', MIXED), ('largest:', LARGEST)][value]
            print('\n' + label, end='')
        elif what < 3:
            print(' %d=%d:%d' % (at, value, number(changed(image, at, new))), end='')
        else:
            image = changed(image, at, new)
            print(' with %d=%d:' % (at, value), end='')
    print()


def step(x):
    return (x * 1103515245 + 12345) % 2**31


def damaged(image, x):
    """One byte or two become any, one more, one less or zero."""
    for y in [x, step(step(x))][:1 + x // 4096 % 2]:
        at, z = y // 8192 % len(image), step(y)
        new = [z // 65536, image[at] + 1, image[at] - 1, 0][z // 8192 % 4]
        image = changed(image, at, bytes([new % 256]))
    return image


def noise(x):
    found = b''
    for _ in range(x // 8192 % 100):
        x = step(x)
        found += bytes([x // 8192 % 256])
    return found


def tries(label, times, make):
    count, total, x = [0] * 8, 0, 1
    for _ in range(times):
        n = number(make(x))
        count[n] += 1
        total = (total * 7 + n) % 1000000007
        x = step(step(step(step(x))))
    print(label, *count, 'sum', total)


def main(folder):
    circuit('example', EXAMPLE)
    circuit('mixed', MIXED)
    circuit('smallest', SMALLEST)
    circuit('largest', LARGEST)
    circuit('version 2', changed(EXAMPLE, 29, b'\2'))
    circuit('refused', changed(EXAMPLE, 20, b'\0'))
    for label, image in ('example', EXAMPLE), ('mixed', MIXED):
        print(label, 'cut to 0, 1, ..:', *(number(image[:n]) for n in range(len(image))), 'and whole', number(image))
    print('largest and a byte more:', number(LARGEST + b'\0'))
    for label, end in ('one short:', 71), ('one long:', 73), ('eight long:', 80):
        print('curve bytes', label, number(mixed(end)))
    bare = [packed(ONE, [([0] * (m + 1), [0] * m)], 1, 0, 48000, 1) for m in range(19)]
    print('one curve of m 0, 1, .., 18, all else in it zero:', *map(number, bare))
    table(open(folder + '/cases.rt').read())
    tries('damaged examples:', 1000, lambda x: damaged(EXAMPLE, x))
    tries('damaged mixed:', 2000, lambda x: damaged(MIXED, x))
    tries('damaged largest:', 100, lambda x: damaged(LARGEST, x))
    tries('noise:', 1000, noise)


main(sys.argv[1])
