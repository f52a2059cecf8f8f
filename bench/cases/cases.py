"""Makes the files of every case in crates/render, which rt runs on them all, or checks them.

cases.py make PROGRAM..    writes data/NAME.image and data/NAME.drives from the case files, their names to args, and PROGRAM's lines to stdout
cases.py check PROGRAM..   exit 1 unless the files are what the case files say and PROGRAM writes the case's lines

PROGRAM may be of several words, an emulator's before its own.
"""

import pathlib
import subprocess
import sys

import describe

HERE = pathlib.Path(__file__).parent
CRATE = HERE.parent.parent / "crates" / "render"
DATA = CRATE / "data"
NAMES = CRATE / "args"
LINES = CRATE / "stdout"
FILES = "document", "limits", "refusals", "files", "circuits", "rounding", "stretches", "versions"


def builds():
    """Every case, by name. A file's cases may be like those of the files before it."""
    known = {}
    for file in FILES:
        found = describe.read(HERE / f"{file}.txt", known)
        if twice := known.keys() & found.keys():
            raise ValueError(f"two cases {' '.join(sorted(twice))}")
        known |= found
    return {name: describe.Build(lines) for name, lines in known.items()}


def contents(path):
    return path.read_bytes() if path.exists() else None


def lines_of(program, *files):
    run = subprocess.run([*program, *files], stdout=subprocess.PIPE)
    return run.stdout if run.returncode == 0 else f"exit {run.returncode}".encode()


def rendered(program, name):
    return lines_of(program, DATA / f"{name}.image", DATA / f"{name}.drives")


def arguments(cases):
    """The files of every case, an image and its drives in turn, as `args` has them."""
    return "".join(f"{name}.image\n{name}.drives\n" for name in cases)


def parted(lines, endings):
    """The lines of each case, whose last one begins with one of the endings."""
    found = [[]]
    for line in lines.splitlines(keepends=True):
        found[-1].append(line)
        if line.startswith(endings):
            found.append([])
    return [b"".join(case) for case in found[:-1]]


def expected():
    """The lines of every case by name: `args` has their order."""
    names = [image.removesuffix(".image") for image in NAMES.read_text().split()[::2]]
    return dict(zip(names, parted(LINES.read_bytes(), (b"end ", b"refused ")), strict=True))


def make(program):
    DATA.mkdir(exist_ok=True)
    for old in DATA.iterdir():
        old.unlink()
    cases = builds()
    for name, build in cases.items():
        build.write(DATA / name)
    NAMES.write_text(arguments(cases))
    LINES.write_bytes(b"".join(rendered(program, name) for name in cases))


def complaints(program, name, build, lines):
    """What is wrong with one case, in words."""
    for kind, wanted in ("image", build.image), ("drives", build.drives):
        if contents(DATA / f"{name}.{kind}") != wanted:
            yield f"{name}.{kind} is not what the case says"
    if rendered(program, name) != lines:
        yield f"{program[-1]} does not write the lines of {name}"
    if not " ".join(lines.decode().split()).endswith(build.expected):
        yield f"the lines of {name} do not end with: {build.expected}"


def verdict(cases, found):
    """Tells the complaints that were found in so many cases; what to exit with."""
    for words in found:
        print(words)
    print(f"{cases} cases, {len(found)} complaints")
    return 1 if found else 0


def check(program):
    cases, lines = builds(), expected()
    found = [words for name, build in cases.items() for words in complaints(program, name, build, lines.get(name, b""))]
    known = {f"{name}.{kind}" for name in cases for kind in ("image", "drives")}
    found += [f"{path.name} belongs to no case" for path in DATA.iterdir() if path.name not in known]
    if NAMES.read_text() != arguments(cases) or LINES.read_bytes() != b"".join(lines.values()):
        found.append("args or stdout do not have the cases in their order")
    return verdict(len(cases), found)


def main(usage, make, check):
    if len(sys.argv) < 3 or sys.argv[1] not in ("make", "check"):
        sys.exit(usage)
    sys.exit({"make": make, "check": check}[sys.argv[1]](sys.argv[2:]))


if __name__ == "__main__":
    main(__doc__, make, check)
