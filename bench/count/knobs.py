"""knobs.py: the tone stack with every knob at its ends and in the middle, with and without its bright capacitor: what its samples cost.

Wants target/bench/count and target/bench/time, which count.sh builds.
"""

import itertools

import table

from table import describe

PLACES = "0", "0.5", "1"


def positions():
    """Every stack's name and its lines."""
    known = describe.read(table.HERE.parent / "cases" / "circuits.txt")
    for stack in "tone_middle", "tone_bright":
        for turned in itertools.product(PLACES, repeat=4):
            knobs = [["knob", knob, place] for knob, place in zip("tbml", turned)]
            name = f"{stack}, knobs t b m l at {' '.join(turned)}"
            yield name, describe.Build([*known[stack], *knobs, *table.SINES, ["samples", table.SAMPLES]])


def main():
    costs = []
    for name, build in positions():
        files = table.written(build)
        mean, most = table.said(table.BENCH / "count", *files)
        (time,) = table.said(table.BENCH / "time", "--time", 1, *files)
        costs.append((time, most, mean, name))
    time, most, mean, name = max(costs)
    print(f"{len(costs)} positions; the slowest takes {time:,.0f} ns a sample, {mean:,.1f} moves ({most:,.0f}): {name}")
    time, most, mean, name = max(costs, key=lambda cost: cost[1])
    print(f"the most moves in a sample are {most:,.0f}: {name}")


if __name__ == "__main__":
    main()
