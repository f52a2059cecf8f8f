"""Parts and buffers of all kinds, of which a program is to write images.

tries(COUNT) has them: every case's parts, as describe.py's image has them, in both versions and in none that is given, into a buffer of just its length, and with anything
where no writer looks into a longer one; the smallest, a middle and the largest of them into buffers of every length, up to 20 bytes more than the image; the limits; small
parts and the largest in every version that a byte can be, with every value of each field of one byte, and every edge of each wider one; and COUNT random parts, of which half
have one to three fields at an edge, or anything in them.
"""

import itertools
import random

import fields
import limits
import random_parts
import record
from record import Try

import cases
import layout

MIDDLE = "stretches_short"


def images():
    """The accepted image of every case that has one, by the case's name."""
    made = {name: build.image for name, build in cases.builds().items()}
    return {name: image for name, image in made.items() if image is not None and layout.number(image) == 0}


def fitting(room, length):
    """The number of parts that are accepted and have an image of this length."""
    return 0 if room >= length else 16


def of_cases(dice, found):
    for (name, image), given in itertools.product(found.items(), (None, *record.VERSIONS)):
        parts, room = record.read(image), dice.randint(len(image), record.LONGEST_BUFFER)
        written = layout.in_version(image, record.in_image(given))
        yield Try(f"{name}, version {given}", parts, len(image), 0, written, given)
        yield Try(f"{name}, version {given}, anything where no writer looks", random_parts.unseen(dice, parts), room, 0, written, given)


def of_lengths(image):
    given = layout.trailer(image).version
    for room in range(len(image) + 21):
        yield Try(f"an image of {len(image)} bytes, room for {room}", record.read(image), room, fitting(room, len(image)), image, given)


def of_versions(parts):
    """Parts for a writer that is given any version, or none."""
    for given in None, *range(256):
        yield Try(f"version {given}", parts, record.length(parts), record.judged(given, 0), given=given)


def of_fields(parts, wanted=lambda path: True):
    """Parts with each value in each of the fields that are wanted."""
    for path, values in fields.places(parts):
        if wanted(path):
            yield from (Try(f"{path} {value}", record.put(parts, path, value), record.length(parts)) for value in values)


def at_an_end(path):
    """Whether a field is the header's, or of the first or the last of the largest parts' elements and curves."""
    return len(path) == 1 or path[:2] in (("elements", 0), ("elements", 31), ("curves", 0), ("curves", 7))


def anything(dice):
    """Random parts, a version and a buffer."""
    parts, given = random_parts.accepted(dice), random_parts.version(dice)
    length = record.length(parts)
    room = dice.choice((length, length, length - 1, length + 1, 0, dice.randint(0, record.LONGEST_BUFFER)))
    if dice.random() < 0.5:
        return Try("random parts", random_parts.unseen(dice, random_parts.broken(dice, parts)), room, given=given)
    return Try("random parts that are accepted", random_parts.unseen(dice, parts), room, record.judged(given, fitting(room, length)), given=given)


def tries(count, seed=1):
    dice = random.Random(seed)
    found = images()
    yield from of_cases(dice, found)
    by_length = sorted(found.values(), key=len)
    for image in by_length[0], found[MIDDLE], by_length[-1]:
        yield from of_lengths(image)
    yield from limits.limits()
    largest = record.read(by_length[-1])
    for parts in limits.WHOLE, largest:
        yield from of_versions(parts)
    yield from of_fields(limits.WHOLE)
    yield from of_fields(largest, at_an_end)
    yield from (anything(dice) for _ in range(count))
