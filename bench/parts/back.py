"""What must come back of images that `parts` writes as netlists and `netlist` reads: back.py IMAGE..

For each image that a netlist can say the lines of `netlist` in the image's version; after all of these, for each other image the one line that `parts` writes.
"""

import pathlib
import sys

BENCH = pathlib.Path(__file__).parent.parent
sys.path[:0] = str(BENCH / "netlist"), str(BENCH / "image")
import layout
import parts


def reason(image):
    """Why no netlist says this image, as a line, or None."""
    number = layout.number(image)
    if number:
        return f"refused {number}\n"
    trailer = layout.trailer(image)
    named = {trailer.output} | {node for element in layout.elements(image) for node in (element.p, element.q)}
    return f"unnamed {trailer.nodes}\n" if max(named) < trailer.nodes else None


if __name__ == "__main__":
    if len(sys.argv) < 2:
        sys.exit(__doc__)
    images = [pathlib.Path(name).read_bytes() for name in sys.argv[1:]]
    reasons = [reason(image) for image in images]
    sys.stdout.writelines(parts.report(image) for image, line in zip(images, reasons) if line is None)
    sys.stdout.writelines(line for line in reasons if line is not None)
