/* Renders an image and a drive file with the proved block: one decimal line per sample, then `end N` or `refused R after N`.
 * A host program in C; what it prints comes from krtovalin_block alone. An unreadable file counts as empty. */
#include <stdio.h>
#include <string.h>

#include "room.h"

static uint8_t state[KRTOVALIN_STATE];

static long output(size_t j)
{
    uint32_t u = 0;
    for (int i = 0; i < 4; i++)
        u |= (uint32_t)outputs[4 * j + i] << (8 * i);
    return (long)(int32_t)u;
}

int main(int argc, char **argv)
{
    FILE *drive_file = argc > 2 ? fopen(argv[2], "rb") : NULL;
    size_t image_length = argc > 1 ? contents(argv[1], image, sizeof image) : 0;
    unsigned long long done = 0;
    uint64_t answer = krtovalin_block(image, image_length, state, sizeof state, 0, drives, 0, outputs, 0);
    if (KRTOVALIN_NUMBER(answer) == 0) {
        size_t set = 4 * (size_t)image[image_length - TRAILER + DRIVEN];
        while (set) {
            size_t length = filled(drive_file, drives, KRTOVALIN_SAMPLES * set);
            answer = krtovalin_block(image, image_length, state, sizeof state, length / set, drives, length, outputs, sizeof outputs);
            for (size_t j = 0; j < KRTOVALIN_COUNT(answer); j++)
                printf("%ld\n", output(j));
            done += KRTOVALIN_COUNT(answer);
            if (KRTOVALIN_NUMBER(answer) || length < KRTOVALIN_SAMPLES * set)
                break;
        }
    }
    if (KRTOVALIN_NUMBER(answer))
        printf("refused %u after %llu\n", KRTOVALIN_NUMBER(answer), done);
    else
        printf("end %llu\n", done);
    return 0;
}
