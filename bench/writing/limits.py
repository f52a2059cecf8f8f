"""Parts and buffers at the limits, and one past them: raw records that crates/bench_writing runs on, so that rt compares its answers.

limits.py make PROGRAM..    writes them to data/limits.raw, and PROGRAM's answers to stdout
limits.py check PROGRAM..   exit 1 unless the file has them and PROGRAM gives these answers, which are document 02's

PROGRAM may be of several words.
"""

import itertools
import pathlib
import sys

import record
from record import Try

BENCH = pathlib.Path(__file__).parent.parent
sys.path.insert(0, str(BENCH / "cases"))
import cases
import layout

CRATE = BENCH.parent / "crates" / "bench_writing"
RECORDS, ANSWERS = CRATE / "data" / "limits.raw", CRATE / "stdout"

# An element of each kind, and two curves, with slopes and breakpoints at their limits. No image has the version of the parts themselves, so a writer that looks at it is found out.
ELEMENTS = (layout.RESISTOR, 1, 2, 0, 1000), (layout.CAPACITOR, 2, 0, 0, 10000), (layout.INDUCTOR, 2, 3, 0, 1000), (layout.DIODE, 3, 0, 1, 0)
CURVES = record.curve(1, (0, 10**7), (600000,)), record.curve(2, (2**30, 0, 2**30), (-2**26, 2**26))
WHOLE = record.parts((255, 3, 1, 3, 48000), [layout.Element(*element) for element in ELEMENTS], CURVES)
LENGTH = record.length(WHOLE)

# Each change to the whole by its number: a path of fields and places, and the value there.
CHANGES = {
    0: ("version 1", "nodes 15", "driven 0", "driven 3", "rate 8000", "rate 192000", "element_count 1", "elements 0 value 1", f"elements 0 value {2 * 10**9}",
        f"elements 2 value {2**32 - 1}"),
    2: ("nodes 0", "nodes 16", "driven 4", "output 0", "output 4", "rate 7999", "rate 192001", "element_count 33", "element_count 255",
        "curve_count 9", "curve_count 255"),
    3: ("curves 1 count 0", "curves 1 count 17", "curves 1 count 255"),
    4: (f"curves 1 slopes 2 {2**30 + 1}", f"curves 0 slopes 0 {2**32 - 1}", f"curves 1 points 0 {-2**26 - 1}", f"curves 1 points 1 {2**26 + 1}",
        f"curves 1 points 0 {-2**31}", f"curves 1 points 1 {2**31 - 1}", f"curves 1 points 1 {-2**26}", f"curves 1 points 0 {2**26}"),
    5: ("elements 0 kind 0", "elements 0 kind 5", "elements 3 p 4", "elements 3 q 3", "elements 2 curve 1", "elements 3 curve 2", "elements 1 value 0", "elements 3 value 1"),
    6: (f"elements 0 value {2 * 10**9 + 1}", f"elements 1 value {2**32 - 1}", "elements 2 value 1"),
}
# Two faults at once, of which the lower number is given. What is higher comes first in the image.
FAULTS = {2: "rate 7999", 3: "curves 1 count 17", 4: f"curves 0 slopes 1 {2**30 + 1}", 5: "elements 3 value 1", 6: "elements 2 value 1"}
PAIRS = tuple(itertools.combinations(FAULTS, 2))
# Versions that a writer is given.
GIVEN = None, 0, 1, 2, 3, 255


def changed(*changes):
    found = WHOLE
    for change in changes:
        *path, value = (word if word[0].isalpha() else int(word) for word in change.split())
        found = record.put(found, path, value)
    return found


def limits():
    for room, given in itertools.product((0, LENGTH - 1, LENGTH, LENGTH + 1), GIVEN):
        yield Try(f"room for {room}, version {given}", WHOLE, room, record.judged(given, 0 if room >= LENGTH else 16), given=given)
    for number, changes in CHANGES.items():
        yield from (Try(change, changed(change), LENGTH, number) for change in changes)
    # Of these there is the trailer alone, which is too short for an image.
    yield Try("no elements and no curves", changed("element_count 0", "curve_count 0"), LENGTH, 2)
    for low, high in PAIRS:
        yield Try(f"{FAULTS[low]}, {FAULTS[high]}", changed(FAULTS[low], FAULTS[high]), LENGTH, low)
    for number, fault in FAULTS.items():
        yield Try(f"{fault}, room for none", changed(fault), 0, number)
        yield from (Try(f"{fault}, version {given}", changed(fault), LENGTH, record.judged(given, number), given=given) for given in (1, 3))


def packed(tries):
    return b"".join(record.packed(tried.parts, tried.room, tried.given) for tried in tries)


def complaints(tries, stream):
    """What is wrong with a program's answers."""
    answers = record.answers(stream, [tried.room for tried in tries])
    return [words for words in map(record.complaint, tries, answers) if words]


def make(program):
    RECORDS.parent.mkdir(exist_ok=True)
    RECORDS.write_bytes(packed(limits()))
    ANSWERS.write_bytes(cases.lines_of(program, RECORDS))


def check(program):
    tries, stream = list(limits()), cases.lines_of(program, RECORDS)
    found = complaints(tries, stream)
    if RECORDS.read_bytes() != packed(tries) or ANSWERS.read_bytes() != stream:
        found.append("data/limits.raw does not have the limits, or stdout not the answers")
    return cases.verdict(len(tries), found)


if __name__ == "__main__":
    cases.main(__doc__, make, check)
