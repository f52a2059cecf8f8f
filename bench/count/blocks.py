"""blocks.py RUNS [--before]: what a sample costs by the block's length, and what a call of no samples does, in Markdown, with both f64 simulators beside.

A call reads its image anew and begins without voltages; the simulators take their circuit for good, and have no call of no samples to speak of. Wants
target/bench/time and target/bench/float, and with --before target/bench/time-before, which is another block's: count.sh builds them and calls this.
"""

import sys

import table

LENGTHS = 1, 16, 64, 4096
CIRCUITS = "clipper", "fender_middle", "rc_ladder"


def main(runs, before):
    names = ["circuit", "block", *table.heads("sample", before), *table.FLOAT_HEADS]
    for row in names, ["---"] * len(names):
        print(f"| {' | '.join(row)} |", flush=True)
    builds = table.builds(table.HERE / "rows.txt")
    for name in CIRCUITS:
        files, circuit = table.written(builds[name]), name.replace("_", " ")
        # What has no sample is told by the call.
        call = table.times("time", ["--call", runs, *files], before)
        print(f"| {' | '.join([circuit, '0: ns a call', *table.columns(call), *[''] * len(table.FLOAT_HEADS)])} |", flush=True)
        for length in LENGTHS:
            blocks, simulators, _ = table.compared(["--block", length, *files], runs, before)
            print(f"| {' | '.join([circuit, f'{length:,}', *blocks, *simulators])} |", flush=True)


if __name__ == "__main__":
    main(int(sys.argv[1]), "--before" in sys.argv)
