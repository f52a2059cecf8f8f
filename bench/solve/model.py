#!/usr/bin/env python3
"""What crates/bench_solve has to print, by the second program: python3 model.py crates/bench_solve/src target/bench/libsecond.a > stdout

Reads the circuits and cases in src/ in the order in which they stand there. The second program's block gives one node's voltage, so each
sample is asked for once a node, with that node for the output."""
import ast
import ctypes
import pathlib
import re
import struct
import subprocess
import sys
import tempfile

PRIME = 1_000_000_007
CALL = re.compile(r'play::(?:circuit|case)\(\s*out,\s*"(\w+)",\s*(b"[^"]+"),\s*([^;?]*?),?\s*\)')


class Second:
    """The second program's block, from its archive."""

    def __init__(self, archive):
        with tempfile.NamedTemporaryFile(suffix=".so") as shared:
            whole = ["-Wl,--whole-archive", archive, "-Wl,--no-whole-archive", "-lpthread", "-ldl", "-lm"]
            subprocess.run(["cc", "-shared", "-o", shared.name, *whole], check=True)
            self.block = ctypes.CDLL(shared.name).second_block
        text, size = ctypes.c_char_p, ctypes.c_size_t
        self.block.argtypes = [text, size, text, size, ctypes.c_uint64, text, size, text, size]
        self.block.restype = ctypes.c_uint64

    def sample(self, image, stored, drive):
        """The sample's number, the voltages of all nodes with ground, and the stored currents after it."""
        nodes, driven = image[-10], image[-9]
        drives, volts = struct.pack("<i", drive) * driven, [0]
        for node in range(1, nodes + 1):
            asked = image[:-4] + bytes([node]) + image[-3:]
            state, output = ctypes.create_string_buffer(struct.pack("<32q", *stored), 256), ctypes.create_string_buffer(4)
            answer = self.block(asked, len(asked), state, 256, 1, drives, len(drives), output, 4)
            volts += struct.unpack("<i", output.raw)
        return answer >> 16, volts, list(struct.unpack("<32q", state.raw))


def spaced(numbers):
    return "".join(f" {number}" for number in numbers)


def circuit(second, name, image, samples, wave):
    """So many samples from a fresh state."""
    stored, checksum = [0] * 32, 1
    for drive in wave[:samples]:
        number, volts, stored = second.sample(image, stored, drive)
        if number:
            return f"{name} refused {number}"
        for one in volts:
            checksum = (checksum * 31 + abs(one)) % PRIME
    return f"{name} agree, sum {checksum}, last{spaced(volts)}"


def case(second, name, image, at, x, drive):
    """One sample, begun with x stored at one element."""
    stored = [x if place == at else 0 for place in range(32)]
    number, volts, stored = second.sample(image, stored, drive)
    told = f" refused {number}" if number else spaced(volts)
    return f"{name}, stored {x}, drive {drive}:{told}, stored{spaced(stored[:image[-12]])}"


def read(call):
    """The name, the image and what else the call says, as words."""
    name, image, rest = call.groups()
    return name, ast.literal_eval(image), rest.replace(",", " ").split()


def cases(second, text):
    """`document.rt`: functions of x and d, then their calls."""
    known = {}
    for name, names, call in re.findall(r"^fn (\w+)\(([^)]*)\) -> io::Result<\(\)> \{\s*(play::case\(.*?\)\n\})", text, re.M | re.S):
        known[name] = re.findall(r"(\w+): i64", names), read(CALL.match(call))
    for name, numbers in re.findall(r"^    (\w+)\(out, ([-0-9, ]+)\)", text[text.index("pub fn cases"):], re.M):
        names, (label, image, words) = known[name]
        given = dict(zip(names, numbers.split(", ")))
        yield case(second, label, image, *(int(given.get(word, word)) for word in words))


def main(source, archive):
    second, source = Second(archive), pathlib.Path(source)
    wave = re.search(r"let wave = \[(.*?)\]", (source / "play.rt").read_text(), re.S)[1].replace("i64", "")
    wave = [int(word) for word in wave.replace(",", " ").split()]
    for line in cases(second, (source / "document.rt").read_text()):
        print(line)
    for call in CALL.finditer((source / "main.rt").read_text()):
        name, image, (samples,) = read(call)
        print(circuit(second, name, image, int(samples), wave))


if __name__ == "__main__":
    main(*sys.argv[1:])
