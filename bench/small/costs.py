"""costs.py PROGRAM: what calls on the emulated board take in instructions, circuit by circuit, in Markdown.

PROGRAM is bench/count/host.c for the board, whose nanoseconds are instructions there; small.sh builds it and calls this. The rows are count's.
"""

import pathlib
import sys

HERE = pathlib.Path(__file__).parent
COUNT = HERE.parent / "count"
sys.path.insert(0, str(COUNT))

import table  # noqa: E402


def taken(program, what, files):
    """Instructions of one run. It is the same in every run, so one is enough."""
    (instructions,) = table.said(HERE / "emulate.sh", program, what, 1, *files)
    return instructions


def main(program):
    heads = "circuit", "instructions a sample", "millions a second at 48 kHz", "a call of no samples"
    for row in heads, ["---"] * len(heads):
        print(f"| {' | '.join(row)} |", flush=True)
    for name, build in table.builds(COUNT / "rows.txt").items():
        files = table.written(build)
        sample, call = taken(program, "--time", files), taken(program, "--call", files)
        print(f"| {name.replace('_', ' ')} | {sample:,.0f} | {sample * table.RATE / 1e6:,.0f} | {call:,.0f} |", flush=True)


if __name__ == "__main__":
    main(sys.argv[1])
