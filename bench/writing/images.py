"""Holds the image files that `netlist` writes against the second program's: images.py COUNT FOLDER PROGRAM..

Both take the examples, the cases of netlists and COUNT random texts, in both versions and in one that there is not. Of each that is accepted both must leave the same image, an
example's being its case's in that version, and any other one with the parts that are shown. Of each that is refused there must be none, or the one that was there before.
All files go to FOLDER. PROGRAM may be of several words.
"""

import os
import pathlib
import random
import resource
import signal
import subprocess
import sys
import time

BENCH = pathlib.Path(__file__).parent.parent
sys.path.insert(0, str(BENCH / "netlist"))
import texts
import parts
import cases
import layout

SECOND = [BENCH.parent / "target" / "bench" / "netlist"]
CASES = BENCH.parent / "crates" / "netlist_main" / "data"
# A call has so many names of texts and images, since a system may take no more.
NAMES = 4000
OLD = b"an image from before"
EXAMPLE = parts.EXAMPLES[0]
# By what stands in front of the texts the version of all images; of 3 there is none.
FRONTS = parts.FRONTS | {("-3",): None}


def lines_of(program, words):
    """What a program shows. What it says of files that it can't write is not compared."""
    return subprocess.run([*program, *words], stdout=subprocess.PIPE, stderr=subprocess.DEVNULL, check=True).stdout


def all_texts(count, folder):
    """The names of all texts. The random ones are written to the folder."""
    folder.mkdir()
    dice, drawn = random.Random(1), [folder / f"{place}.net" for place in range(count)]
    for text in drawn:
        text.write_bytes(texts.anything(dice))
    return [*parts.EXAMPLES, *sorted(CASES.iterdir()), *drawn]


def written(program, front, named, folder):
    """What a program shows of each text that is named, with some words in front, and the files in its folder afterwards. Every other text has an image from before."""
    folder.mkdir()
    images = [folder / f"{place}.image" for place in range(len(named))]
    for image in images[::2]:
        image.write_bytes(OLD)
    names = [name for pair in zip(named, images) for name in pair]
    lines = b"".join(lines_of(program, [*front, *names[at:at + NAMES]]) for at in range(0, len(names), NAMES))
    files = {path.name: path.read_bytes() for path in folder.iterdir()}
    return cases.parted(lines, (b"greatest ", b"refused ")), files


def of_texts(version, named, shown, files):
    """What is wrong with the files that texts leave behind, all of which are of one version."""
    known, left = cases.builds(), dict(files)
    for place, (text, lines) in enumerate(zip(named, shown, strict=True)):
        image = left.pop(f"{place}.image", None)
        if lines.startswith(b"refused "):
            if image != (None if place % 2 else OLD):
                yield f"{text} is refused, and there is a new image or the old one is another"
        elif image is None or parts.report(image).encode() != lines or layout.trailer(image).version != version:
            yield f"{text} has no image, or one that is not what is shown, or not of version {version}"
        elif text in parts.EXAMPLES and image != layout.in_version(known[parts.case_of(text)].image, version):
            yield f"the image of {text} is not its case's"
    yield from (f"{name} is left behind" for name in left)


def of_versions(shown):
    """What is wrong with the refusals, by what stands in front: a text's own is the same in each version, and without one it has 2 in a version that there is not."""
    refused = {front: [one if one.startswith(b"refused ") else None for one in lines] for front, lines in shown.items()}
    for front, version in FRONTS.items():
        if refused[front] != [one if version else one or b"refused 2\n" for one in refused[()]]:
            yield f"with {front} in front other texts are refused, or by other numbers"


def of_no_image(program, folder):
    """What is wrong where there is to be no image: none is named, or it can't be written, or what has its name is no regular file, which a rename would take away."""
    folder.mkdir()
    taken = place, link, linked, pipe = [folder / name for name in ("place", "link", "linked", "pipe")]
    place.mkdir()
    linked.write_bytes(OLD)
    link.symlink_to(linked.name)
    os.mkfifo(pipe)
    shown = lines_of(program, [EXAMPLE])
    for image in "-", "", folder / "none" / "an.image", folder / ("n" * 4100), place, link, pipe:
        if lines_of(program, [EXAMPLE, image]) != shown:
            yield f"another image shows other lines: {image}"
    if lines_of(program, [EXAMPLE, "-", EXAMPLE]) != 2 * shown:
        yield "a second text alone is not shown"
    if set(folder.rglob("*")) != set(taken) or pathlib.Path("-").exists():
        yield "a file is there of an image that is not named or can't be written"
    if not (place.is_dir() and link.is_symlink() and linked.read_bytes() == OLD and pipe.is_fifo()):
        yield "what is no regular file is replaced"


def opened(pipe, process):
    """The pipe's end, once the process reads from the other."""
    while process.poll() is None:
        try:
            return os.fdopen(os.open(pipe, os.O_WRONLY | os.O_NONBLOCK), "wb")
        except OSError:
            time.sleep(0.01)
    sys.exit(f"{process.args} reads no text")


def of_no_room(program, folder, killed):
    """What is wrong with an image from before when another one can't be written, and the system kills the program for it, or only tells it."""
    folder.mkdir()
    pipe, image = folder / "text", folder / "an.image"
    image.write_bytes(OLD)
    os.mkfifo(pipe)
    # Python itself ignores the signal, and hands that on unless signals are restored.
    process = subprocess.Popen([*program, pipe, image], stdout=subprocess.PIPE, stderr=subprocess.DEVNULL, restore_signals=killed)
    # It may write no byte to a file from here on; what has started it may have had to.
    with process, opened(pipe, process) as text:
        resource.prlimit(process.pid, resource.RLIMIT_FSIZE, (0, 0))
        text.write(EXAMPLE.read_bytes())
        text.close()
        process.stdout.read()
    if process.returncode != (-signal.SIGXFSZ if killed else 0):
        yield f"a program that may write nothing ends with {process.returncode}"
    if image.read_bytes() != OLD:
        yield "an image from before is lost when another one can't be written"
    if not killed and set(folder.iterdir()) != {pipe, image}:
        yield "a program that is told that it may write nothing leaves a file"


def main(count, folder, *program):
    folder, found, left = pathlib.Path(folder), [], []
    named = all_texts(int(count), folder / "texts")
    for name, words in ("second", SECOND), ("other", program):
        shown, files = {}, {}
        for front, version in FRONTS.items():
            shown[front], files[front] = written(words, front, named, folder / f"{name}_images{''.join(front)}")
            found += of_texts(version, named, shown[front], files[front])
        found += of_versions(shown)
        found += of_no_image(words, folder / f"{name}_none")
        found += of_no_room(words, folder / f"{name}_killed", True)
        found += of_no_room(words, folder / f"{name}_told", False)
        left.append((shown, files))
    if left[0] != left[1]:
        found.append(f"{program[-1]} shows other lines than the second program, or leaves other images")
    refused = sum(lines.startswith(b"refused ") for lines in shown[()])
    print(f"{len(named)} texts, {len(parts.EXAMPLES)} of them examples and {count} random: {len(named) - refused} images in both versions, {refused} refused")
    sys.exit(cases.verdict(len(named), found))


if __name__ == "__main__":
    if len(sys.argv) < 4:
        sys.exit(__doc__)
    main(*sys.argv[1:])
