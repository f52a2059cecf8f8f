"""Holds a writer of images against the second program's: hold.py COUNT FOLDER PROGRAM..

Both write the images of the same raw records, COUNT of them random, and every byte of their answers is compared. The records go to FOLDER/tries.raw, the answers to
FOLDER/second and FOLDER/other. PROGRAM may be of several words.
"""

import pathlib
import subprocess
import sys
from collections import Counter

import limits
import record
import tries

SECOND = limits.BENCH.parent / "target" / "bench" / "write"


def outcomes(answers):
    """How often each number was given, in words."""
    count = Counter(answer.number for answer in answers)
    return ", ".join(f"{count[number]} refused {number}" if number else f"{count[number]} accepted" for number in sorted(count))


def complaints(found, second, other):
    for tried, ours, theirs in zip(found, second, other):
        if ours != theirs:
            yield f"{tried.what}: answered {theirs.number}, not as the second program, or with other bytes"
        wrong = record.complaint(tried, theirs)
        if wrong:
            yield wrong


def main(count, folder, *program):
    found, folder = list(tries.tries(int(count))), pathlib.Path(folder)
    records, rooms = folder / "tries.raw", [tried.room for tried in found]
    records.write_bytes(limits.packed(found))

    def answered(name, words):
        with open(folder / name, "wb") as stream:
            subprocess.run([*words, records], stdout=stream, check=True)
        return list(record.answers((folder / name).read_bytes(), rooms))

    second, other = answered("second", [SECOND]), answered("other", program)
    for words in complaints(found, second, other):
        sys.exit(words)
    made = sum(tried.image is not None and not answer.number for tried, answer in zip(found, other))
    print(f"{len(found)} records, {count} of them random: {outcomes(other)}; the same answers from both")
    print(f"{made} of the images are those of {len(tries.images())} cases, in both versions, byte for byte as describe.py has made them; all are read back as the parts")


if __name__ == "__main__":
    if len(sys.argv) < 4:
        sys.exit(__doc__)
    main(*sys.argv[1:])
