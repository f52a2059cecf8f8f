"""Reads case files: circuits as part lists with their drives, and what is damaged. README.md has the notation.

The images that it makes are the bench's own: the proved writer must make the same bytes of their parts (bench/writing).
"""

import math
import pathlib
import re
import struct

KINDS = {"R": 1, "C": 2, "L": 3, "D": 4}


def worth(text, names):
    """A number, or an expression over knobs and counters such as 250000(1-t)."""
    text = re.sub(r"(?<=\d)(?=[a-z(])", "*", text)
    return eval(text, {"__builtins__": {}}, names)


def counted(words):
    """The lines that `for COUNTER FIRST LAST LINE` stands for."""
    counter, first, last, *line = words
    for count in range(int(first), int(last) + 1):
        yield [str(worth(word, {counter: count})) if re.search(rf"(?<![a-z]){counter}(?![a-z])", word) else word
               for word in line]


def read(path, known={}):
    """The cases of one file, in order. Lines before the first case belong to every case of the file. `like` looks among the known ones first."""
    shared, cases = [], {}
    lines = shared
    for line in path.read_text().splitlines():
        words = line.split("#")[0].split()
        if not words:
            continue
        if words[0] == "case":
            lines = list(shared)
            cases[words[1]] = lines
        elif words[0] == "like":
            lines += [copied for copied in {**cases, **known}[words[1]] if copied not in shared and copied[0] != "expect"]
        else:
            lines.append(words)
    return cases


class Build:
    """Goes through a case's lines; `image` and `drives` are then its files' bytes, or None for a file that is not there."""

    def __init__(self, lines):
        self.fields = {"rate": 48000, "drives": 1, "out": 1, "nodes": 0, "version": 1}
        self.knobs, self.curves, self.used = {}, {}, []
        self.elements, self.sources = [], []
        self.samples, self.after = 0, []
        self.expected = ""
        for words in lines:
            if words[0] == "knob":
                self.knobs[words[1]] = float(words[2])
        for words in lines:
            self.line(words)
        self.image = self.pack()
        self.drives = self.play()
        for words in self.after:
            self.damage(words)

    def line(self, words):
        name, rest = words[0], words[1:]
        if name == "knob":
            pass
        elif name in self.fields:
            self.fields[name] = int(rest[0])
        elif name == "curve":
            split = rest.index("breakpoints")
            self.curves[rest[0]] = [int(word) for word in rest[2:split]], [int(word) for word in rest[split + 1:]]
        elif name == "samples":
            self.samples = int(rest[0])
        elif name == "drive":
            self.sources.append((int(rest[0]), rest[1], [int(word) for word in rest[2:]]))
        elif name == "for":
            for line in counted(rest):
                self.line(line)
        elif name == "quiet":
            self.sources = []
        elif name == "expect":
            self.expected = " ".join(rest)
        elif name in ("patch", "cut", "append", "missing"):
            self.after.append(words)
        elif name[0] in KINDS:
            self.part(words)
        else:
            raise ValueError(" ".join(words))

    def part(self, words):
        kind = KINDS[words[0][0]]
        p, q = int(words[1]), int(words[2])
        curve, value = 0, 0
        if words[3] in self.curves:
            if words[3] not in self.used:
                self.used.append(words[3])
            curve = self.used.index(words[3])
        else:
            # A knob at its end leaves 1 ohm, since a part of 0 is no part.
            value = max(1, round(worth(words[3], self.knobs)))
        self.fields["nodes"] = max(self.fields["nodes"], p, q)
        self.elements.append(struct.pack("<4BI", kind, p, q, curve, value))

    def pack(self):
        body = b"".join(self.elements)
        start = len(body)
        for name in self.used:
            slopes, breakpoints = self.curves[name]
            body += struct.pack("<B3x", len(breakpoints))
            body += struct.pack(f"<{len(slopes)}I", *slopes) + struct.pack(f"<{len(breakpoints)}i", *breakpoints)
        counts = len(self.elements), len(self.used), self.fields["nodes"], self.fields["drives"]
        return body + struct.pack("<2H4BI2BH", len(body), len(body) - start, *counts,
                                  self.fields["rate"], self.fields["out"], self.fields["version"], 16)

    def play(self):
        lists = [len(numbers) for _, shape, numbers in self.sources if shape == "list"]
        samples = max([self.samples, *lists])
        volts = [[0] * self.fields["drives"] for _ in range(samples)]
        for node, shape, numbers in self.sources:
            for index in range(samples):
                volts[index][node - 1] += self.source(shape, numbers, index)
        return b"".join(struct.pack("<i", one) for now in volts for one in now)

    def source(self, shape, numbers, index):
        if shape == "list":
            return numbers[index] if index < len(numbers) else 0
        if shape == "sine":
            height, hertz = numbers
            return round(height * math.sin(2 * math.pi * hertz * index / self.fields["rate"]))
        if shape == "step":
            height, at = numbers
            return height if index >= at else 0
        if shape == "square":
            height, half = numbers
            return height if index // half % 2 == 0 else -height
        raise ValueError(shape)

    def damage(self, words):
        """The bytes of one file after a patch; a place below 0 counts from the file's end."""
        deed, file, rest = words[0], words[1], words[2:]
        old = getattr(self, file)
        if deed == "missing":
            new = None
        elif deed == "cut":
            new = old[:len(old) - int(rest[0])]
        elif deed == "append":
            new = old + bytes.fromhex("".join(rest))
        else:
            place, bytes_there = int(rest[0]) % len(old), bytes.fromhex("".join(rest[1:]))
            new = old[:place] + bytes_there + old[place + len(bytes_there):]
        setattr(self, file, new)

    def write(self, path):
        """Writes PATH.image and PATH.drives, where they are there."""
        for kind in "image", "drives":
            if getattr(self, kind) is not None:
                pathlib.Path(f"{path}.{kind}").write_bytes(getattr(self, kind))
