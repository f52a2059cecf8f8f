"""table.py FILE [--time RUNS [--before]]: the table of costs of a file's circuits, in Markdown.

Wants target/bench/count and, for times, target/bench/time and target/bench/float, with --before also target/bench/time-before, which is another block's:
count.sh builds them and calls this.
"""

import pathlib
import statistics
import subprocess
import sys

HERE = pathlib.Path(__file__).parent
BENCH = HERE.parent.parent / "target" / "bench"
sys.path.insert(0, str(HERE.parent / "cases"))

import describe  # noqa: E402

# One block, so that what its first sample costs, which has no sample before it to begin at, is one in 4,096.
SAMPLES = 4096
# Whatever a circuit's own rate is, its times are held against this one.
RATE = 48000
SINES = [line.split() for line in ("quiet", "drive 1 sine 4000000 440", "drive 1 sine 4000000 1730")]


def builds(path):
    """The file's circuits under the table's drive, by name."""
    known = describe.read(HERE.parent / "cases" / "circuits.txt")
    return {name: describe.Build([*lines, *SINES, ["samples", SAMPLES]])
            for name, lines in describe.read(path, known).items()}


def said(*words):
    """The numbers in what a program writes."""
    run = subprocess.run([str(word) for word in words], stdout=subprocess.PIPE, text=True, check=True)
    return [float(word) for word in run.stdout.split() if word[0].isdigit()]


def written(build):
    """The files of a circuit's image and drives."""
    files = []
    for kind in "image", "drives":
        files.append(BENCH / f"row.{kind}")
        files[-1].write_bytes(getattr(build, kind))
    return files


def times(program, words, before):
    """The nanoseconds that a program tells, ours last; with `before`, those of the other block's program first."""
    return [said(BENCH / f"{program}{block}", *words)[0] for block in (["-before", ""] if before else [""])]


def heads(what, before):
    """The heads of such times' columns."""
    return [f"ns a {what} before", f"ns a {what}", "after / before"] if before else [f"ns a {what}"]


def columns(times):
    """Their cells: few nanoseconds with a tenth, and of two times how the second is to the first."""
    cells = [f"{time:,.1f}" if time < 20 else f"{time:,.0f}" for time in times]
    return [*cells, f"{times[1] / times[0]:.2f}"] if len(times) == 2 else cells


FLOAT_HEADS = ["f64: ns a sample", "f64 that keeps: ns a sample", "ours / f64", "ours / keeping"]


def floats(ours, runs, *words):
    """The cells of both f64 simulators' times beside ours: the textbook's, and that of the one that keeps its inverse."""
    textbook, keeping = (said(BENCH / "float", *way, "--time", runs, *words)[0] for way in ([], ["--kept"]))
    return f"{textbook:,.0f}", f"{keeping:,.0f}", f"{ours / textbook:,.1f}", f"{ours / keeping:,.1f}"


def compared(words, runs, before):
    """The cells of our time, with `before` the other block's beside it, and those of both f64 simulators'; and our time.

    All of them run in turn, so many rounds: what else the machine has to do changes its speed within seconds, and so meets all alike. A time is the least of its
    rounds, and how two of them are to each other is the median of what it was in the rounds.
    """
    blocks = ["time-before", "time"] if before else ["time"]
    ways = [[block] for block in blocks] + [["float"], ["float", "--kept"]]
    rounds = [[said(BENCH / way[0], *way[1:], "--time", 1, *words)[0] for way in ways] for _ in range(runs)]
    least, ours = [min(times) for times in zip(*rounds)], len(blocks) - 1

    def to(other):
        return statistics.median(times[ours] / times[other] for times in rounds)

    taken = [f"{time:,.0f}" for time in least]
    return [*taken[:ours + 1], *[f"{to(0):.2f}"] * ours], [*taken[ours + 1:], f"{to(-2):,.1f}", f"{to(-1):,.1f}"], least[ours]


def cells(name, build, runs, before):
    files = written(build)
    free = build.fields["nodes"] - build.fields["drives"]
    mean, greatest = said(BENCH / "count", *files)
    yield from (name.replace("_", " "), f"{free}", f"{len(build.elements)}", f"{build.samples:,}", f"{mean:,.1f}", f"{greatest:,.0f}")
    if runs:
        blocks, simulators, ours = compared(files, runs, before)
        yield from (*blocks, f"{1e9 / RATE / ours:,.3g}", *simulators)


def main(path, runs, before):
    names = ["circuit", "free nodes", "elements", "samples", "moves, mean", "most"]
    if runs:
        names += [*heads("sample", before), "times real time at 48 kHz", *FLOAT_HEADS]
    for row in names, ["---"] * len(names):
        print(f"| {' | '.join(row)} |", flush=True)
    for name, build in builds(path).items():
        print(f"| {' | '.join(cells(name, build, runs, before))} |", flush=True)


if __name__ == "__main__":
    main(pathlib.Path(sys.argv[1]), int(sys.argv[3]) if "--time" in sys.argv else 0, "--before" in sys.argv)
