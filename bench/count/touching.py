"""touching.py RUNS [--before]: what one net current costs by the circuit's elements and by those of them that touch the node, and what a sample and a call
of no samples do, in Markdown.

Wants target/bench/net and target/bench/time, and with --before those of another block, named so: count.sh builds them and calls this.
"""

import sys

import table

from table import describe

ELEMENTS = 1, 4, 16, 32
TOUCHING = 1, 4, 16
LINES = "out 2", "drive 1 sine 4000000 440", f"samples {table.SAMPLES}"


def parts(elements, touching):
    """So many at the output node, spread evenly over the image, the rest between the drive and ground: of both, resistors and capacitors in turn."""
    met = 0
    for k in range(elements):
        meets = k * touching % elements < touching
        # Of those at the node, a resistor and a capacitor come from the drive, and then one of each goes to ground.
        ends = "1 0" if not meets else ("1 2", "2 0")[met // 2 % 2]
        yield f"C{k} {ends} 10000" if (met if meets else k - met) % 2 else f"R{k} {ends} 1000"
        met += meets


def main(runs, before):
    names = ["elements", "touching"]
    for what in "net current", "sample", "call of no samples":
        names += table.heads(what, before)
    for row in names, ["---"] * len(names):
        print(f"| {' | '.join(row)} |", flush=True)
    for elements in ELEMENTS:
        for touching in TOUCHING:
            if touching > elements:
                continue
            files = table.written(describe.Build([line.split() for line in (*parts(elements, touching), *LINES)]))
            cells = [str(elements), str(touching)]
            for program, words in ("net", []), ("time", ["--time"]), ("time", ["--call"]):
                cells += table.columns(table.times(program, [*words, runs, *files], before))
            print(f"| {' | '.join(cells)} |", flush=True)


if __name__ == "__main__":
    main(int(sys.argv[1]), "--before" in sys.argv)
