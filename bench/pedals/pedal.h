/* What the programs that play drawn pedals share: a pedal's files, read into room.h's room. */
#ifndef PEDAL_H
#define PEDAL_H

#include <stdio.h>
#include <stdlib.h>

#include "../host/room.h"

/* What a host's call has, mostly. */
#define BLOCK 64

/* The bytes of an image, and of one sample's drives. */
static size_t image_length, set;

/* Reads FOLDER/k.KIND. */
static size_t pedal_file(const char *folder, long k, const char *kind, uint8_t *bytes, size_t room)
{
    char name[4096];
    snprintf(name, sizeof name, "%s/%ld.%s", folder, k, kind);
    return contents(name, bytes, room);
}

/* Reads FOLDER/k.image and FOLDER/k.drives; how many whole blocks the drives make, which is one at the least. */
static size_t pedal_read(const char *folder, long k)
{
    image_length = pedal_file(folder, k, "image", image, sizeof image);
    size_t length = pedal_file(folder, k, "drives", drives, sizeof drives);
    set = image_length > TRAILER ? 4 * (size_t)image[image_length - TRAILER + DRIVEN] : 0;
    size_t blocks = set ? length / set / BLOCK : 0;
    if (blocks < 1 || blocks > KRTOVALIN_SAMPLES / BLOCK) {
        fprintf(stderr, "%s/%ld has no block of %d samples, or more than %d samples\n", folder, k, BLOCK, KRTOVALIN_SAMPLES);
        exit(1);
    }
    return blocks;
}

#endif
