/* Turns a netlist into its image, as a tool on a desk would:
 *
 *     image NETLIST IMAGE [VERSION]
 *
 * The image is of version 2 unless VERSION says 1. A refusal is told by its number, and by its line where it has one, and writes no file. */
#include <stdio.h>
#include <stdlib.h>

#include "krtovalin_image.h"

/* Whether all bytes are in the file. */
static int keep(const char *name, const uint8_t *bytes, size_t length)
{
    FILE *file = fopen(name, "wb");
    if (!file)
        return 0;
    int whole = fwrite(bytes, 1, length, file) == length;
    return fclose(file) == 0 && whole;
}

/* A version as a number; 0, which is refused, where it is none or too large for one. */
static uint32_t version_of(const char *word)
{
    char *end;
    unsigned long version = strtoul(word, &end, 10);
    return *end || version > UINT32_MAX ? 0 : (uint32_t)version;
}

int main(int words, char **word)
{
    /* one byte more than a text may have, by which a longer one is told */
    static uint8_t text[KRTOVALIN_IMAGE_TEXT_MOST + 1];
    uint8_t image[KRTOVALIN_IMAGE_MOST];
    if (words != 3 && words != 4) {
        fprintf(stderr, "usage: image NETLIST IMAGE [VERSION]\n");
        return 1;
    }
    FILE *file = fopen(word[1], "rb");
    size_t length = file ? fread(text, 1, sizeof text, file) : 0;
    if (!file || ferror(file)) {
        perror(word[1]);
        return 1;
    }
    fclose(file);

    uint64_t answer = words == 3 ? krtovalin_image(text, length, image, sizeof image)
                                 : krtovalin_image_version(version_of(word[3]), text, length, image, sizeof image);
    unsigned number = KRTOVALIN_IMAGE_NUMBER(answer), count = KRTOVALIN_IMAGE_COUNT(answer);
    switch (number) {
    case KRTOVALIN_IMAGE_DONE:
        break;
    case KRTOVALIN_IMAGE_REFUSED_GRAMMAR:
    case KRTOVALIN_IMAGE_REFUSED_VALUE:
        printf("refused %u line %u\n", number, count);
        return 1;
    default:
        printf("refused %u\n", number);
        return 1;
    }
    if (!keep(word[2], image, count)) {
        perror(word[2]);
        remove(word[2]);
        return 1;
    }
    return 0;
}
