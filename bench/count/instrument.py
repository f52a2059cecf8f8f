"""instrument.py count IN.ll OUT.ll: a module of the block that counts the moves of a node that the search makes.
instrument.py open IN.ll OUT.ll: a module of the block whose net current can be called from outside.

To count, it adds one to bench_moves at the entry of circuit::Circuit::move_to, and calls bench_sample at the entry of solve::sample::sample;
host.c has both. To lay it open, bench_net calls circuit::Circuit::net_current, and bench_lent is called at the entry of solve::sample::sample with what
a sample is lent; net.c has the other side. It is done before anything is inlined, so that no move gets away.
"""

import pathlib
import re
import sys

COUNTED = """  %bench.old = load i64, ptr @bench_moves
  %bench.new = add i64 %bench.old, 1
  store i64 %bench.new, ptr @bench_moves
"""
MARKED = "  call void @bench_sample()\n"
LENT = "  call void @bench_lent(ptr %a0, ptr %a1, ptr %a2)\n"
OPENED = """
define i64 @bench_net(ptr %circuit, ptr %stored, ptr %volts, i64 %node) {
  %net = call i64 @"circuit::Circuit::net_current"(ptr %circuit, ptr %stored, ptr %volts, i64 %node)
  ret i64 %net
}
"""
NET, MOVE, SAMPLE = "circuit::Circuit::net_current", "circuit::Circuit::move_to", "solve::sample::sample"
# The types of their parameters: another module's may take something else, and a call of the wrong types would go unseen.
PARAMETERS = {NET: ["ptr"] * 3 + ["i64"], MOVE: ["ptr"] * 2 + ["i64"] * 2 + ["ptr"] * 2, SAMPLE: ["ptr"] * 3}
# For each way, the lines at the entry of both functions, and what comes with them.
WAYS = {
    "count": (
        {MOVE: COUNTED, SAMPLE: MARKED},
        "\n@bench_moves = external global i64\ndeclare void @bench_sample()\n",
    ),
    "open": ({NET: "", SAMPLE: LENT}, f"{OPENED}\ndeclare void @bench_lent(ptr, ptr, ptr)\n"),
}


def at_entry(module, name, lines):
    """The module with the lines at the entry of this function, which must be there: a table of zeros would go unseen."""
    # The head, and the label of the first block.
    head = re.search(rf'^define [^\n]*@"{name}"\(([^\n]*)\)[^\n]*\{{\n[^\s:]+:[^\n]*\n', module, re.M)
    if not head:
        sys.exit(f"no {name} in the module")
    if [parameter.split()[0] for parameter in head[1].split(", ")] != PARAMETERS[name]:
        sys.exit(f"{name} takes {head[1]} in the module")
    return module[:head.end()] + lines + module[head.end():]


def main(way, old, new):
    module = pathlib.Path(old).read_text()
    entries, outside = WAYS[way]
    for name, lines in entries.items():
        module = at_entry(module, name, lines)
    pathlib.Path(new).write_text(module + outside)


if __name__ == "__main__":
    main(*sys.argv[1:])
