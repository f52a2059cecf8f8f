/* What the programs share that hold a call against the second program's: random numbers, and bytes of exact size, so that a sanitizer sees any access past
 * them. */
#ifndef RANDOM_H
#define RANDOM_H

#include <stdint.h>
#include <stdio.h>
#include <stdlib.h>
#include <string.h>

static uint64_t seed = 88172645463325252u;

static uint64_t draw(void)
{
    seed ^= seed << 13;
    seed ^= seed >> 7;
    seed ^= seed << 17;
    return seed;
}

static uint64_t below(uint64_t n)
{
    return draw() % n;
}

struct bytes {
    uint8_t *at;
    size_t length;
};

/* no bytes may be anywhere, and at null too */
static struct bytes make(size_t length)
{
    struct bytes b = {length || below(2) ? malloc(length) : NULL, length};
    if (length && !b.at)
        exit(2);
    return b;
}

/* the first so many bytes of some others */
static struct bytes start(struct bytes from, size_t length)
{
    struct bytes b = make(length);
    if (length)
        memcpy(b.at, from.at, length);
    return b;
}

static struct bytes copy(struct bytes from)
{
    return start(from, from.length);
}

static int alike(struct bytes one, struct bytes other)
{
    return one.length == 0 || memcmp(one.at, other.at, one.length) == 0;
}

/* a file, or as many bytes of it; one that could not be opened counts as empty */
static struct bytes load(const char *name, size_t most)
{
    struct bytes b = make(most);
    FILE *file = fopen(name, "rb");
    b.length = file ? fread(b.at, 1, b.length, file) : 0;
    if (file)
        fclose(file);
    return b;
}

/* below that many; now and then none */
static size_t some_length(size_t most)
{
    return below(20) ? below(most) : 0;
}

#endif
