"""curves.py RUNS [--before]: what a curve's length costs, and the stretch that its voltage lies on: one net current and a whole sample, in Markdown.

Wants target/bench/net and target/bench/time, and with --before those of another block, named so: count.sh builds them and calls this.
"""

import sys

import table

from table import describe

LENGTHS = 1, 2, 4, 8, 16
# Where the node is held, in microvolts: below every breakpoint of growth.txt's curves, half way up, and above them all.
PLACES = {"lowest": -200000, "middle": 370000, "top": 750000}
OHMS = 100
# A millivolt of sine, so that no sample is the one before it again and the node stays on its stretch.
LINES = "out 2", f"R1 1 2 {OHMS}", "C1 2 0 10000", "drive 1 sine 1000 440", f"samples {table.SAMPLES}"


def current(slopes, breakpoints, v):
    """A curve's current in femtoamperes, zero volts being below its breakpoints."""
    bends = zip(slopes, slopes[1:], breakpoints)
    return slopes[0] * v + sum((above - below) * max(0, v - breakpoint) for below, above, breakpoint in bends)


def held(curves, name, v):
    """A resistor into a capacitor and one diode, driven so that the node between them stands at about v."""
    drive = v + current(*curves[name], v) * OHMS // 10**9
    words = ["curve", name, "slopes", *curves[name][0], "breakpoints", *curves[name][1]]
    lines = " ".join(map(str, words)), *LINES, f"D1 2 0 {name}", f"drive 1 step {drive} 0"
    return describe.Build([line.split() for line in lines])


def main(runs, before):
    names = ["breakpoints", "stretch", *table.heads("net current", before), *table.heads("sample", before)]
    for row in names, ["---"] * len(names):
        print(f"| {' | '.join(row)} |", flush=True)
    curves = table.builds(table.HERE / "growth.txt")["breakpoints_16"].curves
    for length in LENGTHS:
        for place, v in PLACES.items():
            # With one breakpoint, half way up is still the lowest stretch.
            if length == 1 and place == "middle":
                continue
            files = table.written(held(curves, f"B{length}", v))
            nets, samples = table.times("net", [runs, *files], before), table.times("time", ["--time", runs, *files], before)
            print(f"| {' | '.join([str(length), place, *table.columns(nets), *table.columns(samples)])} |", flush=True)


if __name__ == "__main__":
    main(int(sys.argv[1]), "--before" in sys.argv)
