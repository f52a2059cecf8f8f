/* Holds the proved krtovalin_image and krtovalin_image_version against the second program's: each netlist with a buffer of every length up to past its image's, between
 * bytes that must stay; then random calls on the netlists, whole and damaged, in versions that there are and that there are not. The answer and every byte of the buffer
 * must agree, and what is not written must be as it was. In random calls each buffer is as long as it says and no longer, so that a sanitizer sees any access past it.
 *
 *     compare CALLS NETLIST .. */
#include "krtovalin_image.h"
#include "../random.h"
#include "../second/second.h"

#define NUMBERS (KRTOVALIN_IMAGE_REFUSED_BUFFER + 1)

#define LONGEST KRTOVALIN_IMAGE_TEXT_MOST

/* How many bytes around a buffer are watched. An odd number, so that nothing is aligned. */
#define AROUND 17

static unsigned long numbers[NUMBERS];

static struct bytes noise(size_t length)
{
    struct bytes b = make(length);
    for (size_t i = 0; i < length; i++)
        b.at[i] = (uint8_t)draw();
    return b;
}

/* Where no version is given, it is this one. */
#define UNLESS_GIVEN 2

/* The version of a call that is given none. */
#define NONE (-1)

static uint64_t proved(int64_t version, struct bytes text, struct bytes image)
{
    if (version == NONE)
        return krtovalin_image(text.at, text.length, image.at, image.length);
    return krtovalin_image_version((uint32_t)version, text.at, text.length, image.at, image.length);
}

static uint64_t second(int64_t version, struct bytes text, struct bytes image)
{
    if (version == NONE)
        return second_image(text.at, text.length, image.at, image.length);
    return second_image_version((uint32_t)version, text.at, text.length, image.at, image.length);
}

static void stop(int64_t version, struct bytes text, struct bytes image, const char *why)
{
    printf("%s, for version %ld (%d is none), a buffer of %lu bytes and this text of %lu:\n", why, (long)version, NONE, (unsigned long)image.length,
           (unsigned long)text.length);
    fwrite(text.at, 1, text.length, stdout);
    exit(1);
}

/* The answer of both, to a version, a text and a buffer. */
static uint64_t answered(int64_t version, struct bytes text, struct bytes image)
{
    struct bytes before = copy(image), other = copy(image), again = copy(image);
    uint64_t a = proved(version, text, image), b = second(version, text, other);
    if (a != b || !alike(image, other))
        stop(version, text, image, a == b ? "the buffers differ" : "the answers differ");
    if (version == NONE && (proved(UNLESS_GIVEN, text, again) != a || !alike(image, again)))
        stop(version, text, image, "the version that is written unless one is given is another");
    size_t written = KRTOVALIN_IMAGE_NUMBER(a) == KRTOVALIN_IMAGE_DONE ? KRTOVALIN_IMAGE_COUNT(a) : 0;
    if (written > image.length || (written < image.length && memcmp(image.at + written, before.at + written, image.length - written)))
        stop(version, text, image, "bytes past the image were written");
    numbers[KRTOVALIN_IMAGE_NUMBER(a) < NUMBERS ? KRTOVALIN_IMAGE_NUMBER(a) : 0]++;
    free(before.at), free(other.at), free(again.at);
    return a;
}

/* Buffers of every length, from none to some bytes more than the image has. */
static void sweep(int64_t version, struct bytes text)
{
    struct bytes enough = noise(KRTOVALIN_IMAGE_MOST);
    uint64_t answer = answered(version, text, enough);
    size_t most = (KRTOVALIN_IMAGE_NUMBER(answer) == KRTOVALIN_IMAGE_DONE ? KRTOVALIN_IMAGE_COUNT(answer) : 0) + 8;
    for (size_t length = 0; length <= most; length++) {
        struct bytes field = noise(AROUND + length + AROUND), before = copy(field), image = {field.at + AROUND, length};
        answered(version, text, image);
        if (memcmp(field.at, before.at, AROUND) || memcmp(image.at + length, before.at + AROUND + length, AROUND))
            stop(version, text, image, "bytes around the buffer were written");
        free(field.at), free(before.at);
    }
    free(enough.at);
}

/* any part of some bytes, where it lies */
static struct bytes part(struct bytes from)
{
    size_t first = below(from.length + 1);
    return (struct bytes){from.length ? from.at + first : NULL, below(from.length - first + 1)};
}

/* a text with a part of it replaced */
static struct bytes spliced(struct bytes text, size_t from, size_t to, struct bytes by)
{
    struct bytes b = make(from + by.length + text.length - to);
    if (from)
        memcpy(b.at, text.at, from);
    if (by.length)
        memcpy(b.at + from, by.at, by.length);
    if (to < text.length)
        memcpy(b.at + from + by.length, text.at + to, text.length - to);
    return b;
}

/* a text with one change: mostly a byte, put in or in place of another, and mostly one that a netlist has */
static struct bytes changed(struct bytes text, struct bytes other)
{
    static uint8_t said[] = "0123456789RCLD +|()-;_\t\r\nrcdo", blanks[LONGEST + 1];
    size_t from = below(text.length + 1), left = text.length - from, longest = LONGEST - 1 + below(3);
    uint8_t byte = (uint8_t)draw();
    switch (below(40)) {
    case 0: /* a part is gone */
        return spliced(text, from, from + below(left + 1), (struct bytes){NULL, 0});
    case 1: /* the end is gone */
        return spliced(text, from, text.length, (struct bytes){NULL, 0});
    case 2: /* as long as a text may be, a byte shorter or a byte longer */
        memset(blanks, below(2) ? ' ' : '\n', sizeof blanks);
        return spliced(text, from, from, (struct bytes){blanks, text.length < longest ? longest - text.length : 0});
    case 3: case 4: case 5: case 6: /* a part of another text is put in */
        return spliced(text, from, from, part(other));
    case 7: case 8: case 9: case 10: /* any byte */
        return spliced(text, from, from + (left && below(3)), (struct bytes){&byte, 1});
    default:
        return spliced(text, from, from + (left && below(3)), (struct bytes){said + below(sizeof said - 1), 1});
    }
}

/* up to three changes */
static struct bytes damaged(struct bytes text, struct bytes other)
{
    struct bytes b = copy(text);
    for (uint64_t left = below(4); left; left--) {
        struct bytes next = changed(b, other);
        free(b.at);
        b = next;
    }
    return b;
}

/* mostly one that there is, or none; the others would be such a one if they were cut to fewer bits, or are next to one */
static int64_t some_version(void)
{
    static const int64_t known[] = {NONE, 1, 2}, other[] = {0, 3, 255, 256, 257, 258, 65537, UINT32_MAX};
    return below(5) ? known[below(3)] : other[below(sizeof other / sizeof *other)];
}

int main(int argc, char **argv)
{
    unsigned long calls = argc > 2 ? strtoul(argv[1], NULL, 10) : 0;
    uint64_t texts = argc > 2 ? (uint64_t)argc - 2 : 0;
    for (uint64_t i = 0; i < texts; i++) {
        struct bytes text = load(argv[2 + i], LONGEST);
        sweep(NONE, text);
        sweep(1, text);
        free(text.at);
    }
    for (unsigned long call = 0; call < calls; call++) {
        struct bytes whole = load(argv[2 + below(texts)], LONGEST), other = load(argv[2 + below(texts)], LONGEST);
        struct bytes text = damaged(whole, other), image = noise(below(3) ? KRTOVALIN_IMAGE_MOST - 1 + below(3) : some_length(400));
        answered(some_version(), text, image);
        free(whole.at), free(other.at), free(text.at), free(image.at);
    }
    printf("%lu random calls agree, and %llu texts with buffers of every length; by number:", calls, (unsigned long long)texts);
    for (int i = 0; i < NUMBERS; i++)
        if (numbers[i])
            printf(" %lu of %d", numbers[i], i);
    printf("\n");
    return 0;
}
