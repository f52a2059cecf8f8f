"""Holds the f64 simulator against the second program's lines: compare.py PROGRAM prints the largest distance in each real circuit and each case of
versions.txt that is not refused, and how far the simulator that keeps its inverse is from the textbook's, which rounding alone may make.

Whole microvolts are cut downward at each node and the cut is stored, so the two drift apart by up to some millivolts. Across stiff links,
where a knob at its end leaves 1 ohm or a curve is as steep, whole microvolts cannot follow the real circuit, and the distance is shown but not judged.
"""

import pathlib
import subprocess
import sys

CASES = pathlib.Path(__file__).parent.parent / "cases"
sys.path.insert(0, str(CASES))
import cases

FILES = "circuits", "versions"
STIFF = {"stiff_link", "tone_treble_0", "tone_treble_1", "tone_volume_1", "tone_all_1", "version_2_image_1360"}
LIMIT, ROUNDING = 6000, 0.01


def volts(program, name, *words):
    files = [cases.DATA / f"{name}.{kind}" for kind in ("image", "drives")]
    run = subprocess.run([program, *words, *files], stdout=subprocess.PIPE, text=True, check=True)
    return [float(line) for line in run.stdout.split()]


def distance(one, other):
    return max(abs(a - b) for a, b in zip(one, other, strict=True))


def main(program):
    known = [line for file in FILES for line in (CASES / f"{file}.txt").read_text().splitlines()]
    lines = cases.expected()
    failed = False
    for name in (line.split()[1] for line in known if line.startswith("case ")):
        *outputs, end = lines[name].splitlines()
        if not end.startswith(b"end "):
            continue
        textbook = volts(program, name)
        apart = distance(textbook, [int(line) for line in outputs])
        rounded = distance(textbook, volts(program, name, "--kept"))
        judged = name not in STIFF
        failed |= judged and apart > LIMIT or rounded > ROUNDING
        print(f"{name:30} {apart:12.1f} microvolts, kept {rounded:.6f}{'' if judged else '   stiff'}")
    return 1 if failed else 0


if __name__ == "__main__":
    sys.exit(main(sys.argv[1]))
