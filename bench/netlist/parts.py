"""Holds what a program prints of the netlists in examples/ against the bench's cases: parts.py PROGRAM..

Each of them says which case it is, and its lines must be those of the case's image, in each version. PROGRAM may be of several words.
"""

import itertools
import pathlib
import re
import sys

BENCH = pathlib.Path(__file__).parent.parent
sys.path[:0] = str(BENCH / "cases"), str(BENCH / "image")
import cases
import layout

EXAMPLES = sorted((BENCH.parent / "examples").glob("*.net"))
# By what stands in front of a text the version of what is shown.
FRONTS = {(): 2, ("-1",): 1, ("-2",): 2}
LETTERS = {layout.RESISTOR: "R", layout.CAPACITOR: "C", layout.INDUCTOR: "L", layout.DIODE: "D"}


def element_line(element, rate):
    letter, p, q = LETTERS[element.kind], element.p, element.q
    if element.kind == layout.DIODE:
        return f"{letter} {p} {q} {element.curve}"
    return f"{letter} {p} {q} {element.value} {layout.conductance(element, rate)}"


def bound(image, node):
    """A node's held conductance, its steepest sum, and the least B for e = 0."""
    trailer, curves = layout.trailer(image), layout.curves(image)
    held = steepest = layout.leak(trailer.version)
    for element in layout.elements(image):
        if node not in (element.p, element.q):
            continue
        steepest += max(curves[element.curve].slopes) if element.kind == layout.DIODE else layout.conductance(element, trailer.rate)
        if element.p + element.q - node <= trailer.driven:
            held += layout.conductance(element, trailer.rate)
    return held, steepest, -(-steepest // held)


def report(image):
    """What `netlist` prints of a text with the parts of this image."""
    number = layout.number(image)
    if number:
        return f"refused {number}\n"
    trailer = layout.trailer(image)
    lines = [f"version {trailer.version}", f"nodes {trailer.nodes}", f"drives {trailer.driven}", f"output {trailer.output}",
             f"rate {trailer.rate}", f"elements {trailer.elements}", f"curves {trailer.curves}"]
    lines += [element_line(element, trailer.rate) for element in layout.elements(image)]
    for curve in layout.curves(image):
        lines += [" ".join(map(str, ("slopes", *curve.slopes))), " ".join(map(str, ("breakpoints", *curve.points)))]
    bounds = {node: bound(image, node) for node in range(trailer.driven + 1, trailer.nodes + 1)}
    lines += [" ".join(map(str, (node, *numbers))) for node, numbers in bounds.items()]
    lines.append(f"greatest {max((least for _, _, least in bounds.values()), default=0)}")
    return "".join(f"{line}\n" for line in lines)


def case_of(example):
    """The bench's case that an example says it is."""
    case, = re.findall(r"^;.* case (\w+)\.$", example.read_text(), re.MULTILINE)
    return case


def complaints(program):
    known = cases.builds()
    for example, (front, version) in itertools.product(EXAMPLES, FRONTS.items()):
        case = case_of(example)
        if cases.lines_of(program, *front, example).decode() != report(layout.in_version(known[case].image, version)):
            yield f"{program[-1]} does not write the parts of case {case} in version {version} for {' '.join((*front, example.name))}"


if __name__ == "__main__":
    if len(sys.argv) < 2:
        sys.exit(__doc__)
    sys.exit(cases.verdict(len(EXAMPLES), list(complaints(sys.argv[1:]))))
