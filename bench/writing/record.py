"""A circuit's parts as a raw record, which can hold any parts whatever, and what a program answers to one. README.md has the layout of both."""

import pathlib
import struct
import sys
from collections import namedtuple

sys.path.insert(0, str(pathlib.Path(__file__).parent.parent / "image"))
import layout

HEADER, CURVE = "<H6BI2B", "<B17I16i"
LONGEST_BUFFER = 2047
# What a buffer holds before the call.
BEFORE = bytes((7 * place + 165) % 256 for place in range(LONGEST_BUFFER))
# An image's, of which a writer that is given none writes the last.
VERSIONS = 1, 2
# What stands in a record: always 32 elements, and 8 curves of 17 slopes and 16 breakpoints, whatever the counts are. The version is the parts' own, at which no writer looks.
Parts = namedtuple("Parts", "version nodes driven output rate element_count curve_count elements curves")
Curve = namedtuple("Curve", "count slopes points")
Answer = namedtuple("Answer", "number length buffer")
NO_ELEMENT, NO_CURVE = layout.Element(0, 0, 0, 0, 0), Curve(0, (0,) * 17, (0,) * 16)
# Parts for a buffer with so much room, and what comes of them as far as it is known: the number, and the image. The version that the writer is given may be none.
Try = namedtuple("Try", "what parts room number image given", defaults=(None, None, None))


def padded(found, places, empty):
    return *found, *[empty] * (places - len(found))


def curve(count, slopes, points):
    """With zeros past what there is."""
    return Curve(count, padded(slopes, 17, 0), padded(points, 16, 0))


def parts(header, elements, curves):
    """Of a header's version, nodes, driven, output and rate; the counts are those of what there is."""
    return Parts(*header, len(elements), len(curves), padded(elements, 32, NO_ELEMENT), padded(curves, 8, NO_CURVE))


def read(image):
    """The parts of an accepted image."""
    t = layout.trailer(image)
    curves = [curve(len(c.points), c.slopes, c.points) for c in layout.curves(image)]
    return parts((t.version, t.nodes, t.driven, t.output, t.rate), layout.elements(image), curves)


def reached(any_parts):
    """The same parts with zeros past their counts."""
    curves = [curve(c.count, c.slopes[:c.count + 1], c.points[:c.count]) for c in any_parts.curves[:any_parts.curve_count]]
    return parts(any_parts[:5], any_parts.elements[:any_parts.element_count], curves)


def length(any_parts):
    """Of the image that parts with counts in range would have."""
    return 16 + 8 * any_parts.element_count + sum(8 + 8 * c.count for c in any_parts.curves[:any_parts.curve_count])


def put(whole, path, value):
    """The same with another value at the end of a path of fields and places."""
    if not path:
        return value
    first, *rest = path
    if isinstance(first, str):
        return whole._replace(**{first: put(getattr(whole, first), rest, value)})
    return *whole[:first], put(whole[first], rest, value), *whole[first + 1:]


def in_image(given):
    """The version of what is written by a writer that is given this one, or none."""
    return VERSIONS[-1] if given is None else given


def judged(given, number):
    """The number of parts that have this one in each version that there is: of another it is 2, before all that comes after 2."""
    return number if in_image(given) in VERSIONS else 2


def packed(any_parts, room, given=None):
    """The record of parts for a buffer with room for so many bytes. A version that is not given stands as 0, so that a program that takes it for one is found out."""
    elements = b"".join(struct.pack(layout.ELEMENT, *element) for element in any_parts.elements)
    curves = b"".join(struct.pack(CURVE, c.count, *c.slopes, *c.points) for c in any_parts.curves)
    return struct.pack(HEADER, room, given is not None, given or 0, *any_parts[:7]) + elements + curves


def answers(stream, rooms):
    """What a program has answered, buffer by buffer."""
    wanted = sum(16 + room for room in rooms)
    if len(stream) != wanted:
        raise ValueError(f"{len(stream)} bytes of answers, where {wanted} are wanted")
    at = 0
    for room in rooms:
        yield Answer(*struct.unpack_from("<2Q", stream, at), stream[at + 16:at + 16 + room])
        at += 16 + room


def complaint(tried, answer):
    """What is wrong with an answer, in words, or None. An image that was written has to be read back as the parts, as far as their counts reach."""
    written, rest = answer.buffer[:answer.length], answer.buffer[answer.length:]
    if tried.number not in (None, answer.number):
        return f"{tried.what}: answered {answer.number}, not {tried.number}"
    if rest != BEFORE[answer.length:tried.room]:
        return f"{tried.what}: answered {answer.number}, and bytes past the length {answer.length} are not as they were"
    if answer.number:
        return f"{tried.what}: a length beside {answer.number}" if answer.length else None
    if layout.number(written) != 0 or read(written) != reached(tried.parts)._replace(version=in_image(tried.given)):
        return f"{tried.what}: what is written is not read back as the parts"
    if tried.image not in (None, written):
        return f"{tried.what}: not the bytes that describe.py makes"
    return None
