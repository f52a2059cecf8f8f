"""report.py COUNT SEED RUNS [--before]: what the pedals cost that draw.py has drawn to target/bench/pedals, in Markdown.

Wants target/bench/play, and with --before target/bench/play-before, which is another block's: pedals.sh builds them and calls this.
"""

import pathlib
import subprocess
import sys

BENCH = pathlib.Path(__file__).parent.parent.parent / "target" / "bench"
FOLDER = BENCH / "pedals"
REAL_TIME = 1e9 / 48000
WORST = 5


class Played:
    """One line of play.c's."""

    def __init__(self, pedal, line):
        self.pedal = pedal
        self.refused, self.blocks, self.slow, self.mean, self.block, self.longest, self.sample = (float(word) for word in line.split())


def played(program, folder, count, runs, *words):
    """What the program tells of the folder's pedals."""
    run = subprocess.run([BENCH / program, folder, str(count), str(runs), *words], stdout=subprocess.PIPE, text=True, check=True)
    return [Played(pedal, line) for pedal, line in enumerate(run.stdout.splitlines())]


def sums(pedals):
    """The rows of the table, by name."""
    done = [pedal for pedal in pedals if not pedal.refused]
    return {
        "pedals": len(pedals),
        "refused": len(pedals) - len(done),
        "slower than real time in the mean": sum(pedal.mean > REAL_TIME for pedal in done),
        "with a block of 64 samples that is slower": sum(pedal.slow > 0 for pedal in done),
        "blocks of 64": sum(pedal.blocks for pedal in done),
        "blocks slower than real time": sum(pedal.slow for pedal in done),
        "ns a sample, mean of all": sum(pedal.mean for pedal in done) / len(done),
        "ns a sample, slowest pedal": max(pedal.mean for pedal in done),
        "ns a sample, worst block of 64": max(pedal.block for pedal in done),
        "ns of the worst sample": max(pedal.longest for pedal in done),
    }


def row(*cells):
    print(f"| {' | '.join(cells)} |", flush=True)


def peak(pedal):
    """What the first driven node's sines come to, in volts."""
    words = (line.split() for line in (FOLDER / f"{pedal}.txt").read_text().splitlines() if line.startswith("drive 1 sine"))
    return sum(int(word[3]) for word in words) / 1e6


def worst(pedals, seed):
    """A table of the pedals with the worst blocks, refused ones left out."""
    row("pedal", "free nodes", "elements", "peak, V", "slow blocks", "ns a sample", "worst block", "worst sample: ns", "which")
    row(*["---"] * 9)
    done = [pedal for pedal in pedals if not pedal.refused]
    for one in sorted(done, key=lambda pedal: -pedal.block)[:WORST]:
        trailer = (FOLDER / f"{one.pedal}.image").read_bytes()[-16:]
        row(f"{seed} {one.pedal}", f"{trailer[6] - trailer[7]}", f"{trailer[4]}", f"{peak(one.pedal):.2f}", f"{one.slow:.0f}", f"{one.mean:,.0f}",
            f"{one.block:,.0f}", f"{one.longest:,.0f}", f"{one.sample:.0f}")


def main(count, seed, runs, before):
    blocks = {"before": "play-before", "now": "play"} if before else {"now": "play"}
    found = {name: played(program, FOLDER, count, runs) for name, program in blocks.items()}
    row("", *found)
    row(*["---"] * (1 + len(found)))
    told = [sums(pedals) for pedals in found.values()]
    for name in told[0]:
        row(name, *(f"{sums[name]:,.0f}" for sums in told))
    for name, pedals in found.items():
        print(f"\nThe worst blocks, {name}:\n")
        worst(pedals, seed)


if __name__ == "__main__":
    main(int(sys.argv[1]), sys.argv[2], int(sys.argv[3]), "--before" in sys.argv)
