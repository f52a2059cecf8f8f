"""drives.py RUNS [--before]: the thirteen diodes at twelve drives, in Markdown: a sample in the mean and in the worst block of 64, the worst sample, and both
f64 simulators in the mean.

How many of the diodes turn on and off in a sample goes by the drive, and so does the search's work. Wants target/bench/play and target/bench/float, and with
--before target/bench/play-before, which is another block's: pedals.sh builds them and calls this.
"""

import pathlib
import sys

sys.path.insert(0, str(pathlib.Path(__file__).parent.parent / "count"))

import report  # noqa: E402
import table  # noqa: E402

VOLTS = 0.1, 0.2, 0.5, 1, 1.5, 2, 3, 4, 6, 8, 10, 12
FOLDER = table.BENCH / "drives"


def build(volts):
    """table.py's sines, half of the drive each."""
    known = table.describe.read(table.HERE.parent / "cases" / "circuits.txt")["thirteen_diodes"]
    sines = [[*line[:3], str(round(volts * 500000)), line[4]] if line[0] == "drive" else line for line in table.SINES]
    return table.describe.Build([*known, *sines, ["samples", table.SAMPLES]])


def main(runs, before):
    FOLDER.mkdir(exist_ok=True)
    for k, volts in enumerate(VOLTS):
        build(volts).write(FOLDER / str(k))
    found = [report.played(program, FOLDER, len(VOLTS), runs, "each") for program in (["play-before", "play"] if before else ["play"])]
    heads = [head for what in ("sample", "sample, worst block", "sample, the worst") for head in table.heads(what, before)]
    report.row("peak, V", *heads, *table.FLOAT_HEADS)
    report.row(*["---"] * (1 + len(heads) + len(table.FLOAT_HEADS)))
    for k, volts in enumerate(VOLTS):
        lines = [pedals[k] for pedals in found]
        cells = [cell for what in ("mean", "block", "longest") for cell in table.columns([getattr(line, what) for line in lines])]
        files = [FOLDER / f"{k}.{kind}" for kind in ("image", "drives")]
        report.row(f"{volts:g}", *cells, *table.floats(lines[-1].mean, runs, *files))


if __name__ == "__main__":
    main(int(sys.argv[1]), "--before" in sys.argv)
