"""The fields of parts by their places, their own version among them, and values at which something begins or ends."""

HEADER = {"version": 1, "nodes": 1, "driven": 1, "output": 1, "rate": 4, "element_count": 1, "curve_count": 1}
ELEMENT = {"kind": 1, "p": 1, "q": 1, "curve": 1, "value": 4}
WORDS = 0, 1, 2, 7999, 8000, 192000, 192001, 2**30, 2**30 + 1, 2 * 10**9, 2 * 10**9 + 1, 2**31, 2**32 - 1
POINTS = -2**31, -2**26 - 1, -2**26, -1, 0, 1, 2**26, 2**26 + 1, 2**31 - 1


def places(parts):
    """The path of every field that counts in parts that are accepted, and what is put there: every value of one byte, and edges of wider fields."""
    # A capacitor has at most about so many picofarads, and an inductor at least about so many microhenries.
    most, least = 2**30 * 500 // parts.rate, 10**15 // (2**31 * parts.rate)
    values = {1: range(256), 4: (*WORDS, most, most + 1, least, least + 1)}
    yield from (((field,), values[width]) for field, width in HEADER.items())
    for place in range(parts.element_count):
        yield from ((("elements", place, field), values[width]) for field, width in ELEMENT.items())
    for place, curve in enumerate(parts.curves[:parts.curve_count]):
        yield ("curves", place, "count"), values[1]
        yield from ((("curves", place, "slopes", one), WORDS) for one in range(curve.count + 1))
        # A breakpoint may come next to another, and not up to it.
        beside = [point + more for point in curve.points[:curve.count] for more in (-1, 0, 1)]
        yield from ((("curves", place, "points", one), (*POINTS, *beside)) for one in range(curve.count))
