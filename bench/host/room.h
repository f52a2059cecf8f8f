/* What the C programs around the proved block share: room for the longest image and the longest block, and files read into it. */
#ifndef ROOM_H
#define ROOM_H

#include <stdio.h>

#include "krtovalin.h"

#define LONGEST 1360
#define TRAILER 16
/* Where the trailer has the count of driven nodes, and how many of them there may be. */
#define DRIVEN 7
#define DRIVEN_MOST 15

/* One byte more than the longest: an image that is too long is told by it. */
static uint8_t image[LONGEST + 1];
static uint8_t drives[KRTOVALIN_SAMPLES * DRIVEN_MOST * 4];
static uint8_t outputs[KRTOVALIN_SAMPLES * 4];

/* The next so many bytes of a file, or as many as it has. One that could not be opened counts as empty. */
static size_t filled(FILE *file, uint8_t *bytes, size_t length)
{
    return file ? fread(bytes, 1, length, file) : 0;
}

static inline size_t contents(const char *name, uint8_t *bytes, size_t room)
{
    FILE *file = fopen(name, "rb");
    size_t length = filled(file, bytes, room);
    if (file)
        fclose(file);
    return length;
}

#endif
