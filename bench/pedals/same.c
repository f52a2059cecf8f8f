/* same FOLDER COUNT EACH SAMPLES: holds the block against the second program's on FOLDER/0, then on the one EACH later, and so on below COUNT: the first SAMPLES
   samples in blocks, the answer and every byte of state and outputs after each. */
#include <string.h>

#include "../second/second.h"
#include "pedal.h"

static unsigned long samples, refused;

/* Plays a pedal with both: whether they agree. A refusal ends it. */
static int same(long k, size_t blocks)
{
    static uint8_t outputs2[sizeof outputs];
    uint8_t state[KRTOVALIN_STATE] = {0}, state2[KRTOVALIN_STATE] = {0};
    for (size_t b = 0; b < blocks; b++) {
        const uint8_t *from = drives + b * BLOCK * set;
        uint64_t one = krtovalin_block(image, image_length, state, sizeof state, BLOCK, from, BLOCK * set, outputs, sizeof outputs);
        uint64_t other = second_block(image, image_length, state2, sizeof state2, BLOCK, from, BLOCK * set, outputs2, sizeof outputs2);
        int states = memcmp(state, state2, sizeof state) == 0, places = memcmp(outputs, outputs2, sizeof outputs) == 0;
        if (one != other || !states || !places) {
            printf("pedal %ld, block %zu: %llu and %llu, state %s, outputs %s\n", k, b, (unsigned long long)one, (unsigned long long)other,
                   states ? "same" : "differs", places ? "same" : "differ");
            return 0;
        }
        samples += KRTOVALIN_COUNT(one);
        if (KRTOVALIN_NUMBER(one)) {
            refused++;
            break;
        }
    }
    return 1;
}

int main(int words, char **word)
{
    long count = words == 5 ? atol(word[2]) : 0, each = words == 5 ? atol(word[3]) : 0, pedals = 0;
    size_t most = words == 5 ? (size_t)atol(word[4]) / BLOCK : 0;
    if (count < 1 || each < 1 || most < 1) {
        fprintf(stderr, "same FOLDER COUNT EACH SAMPLES\n");
        return 1;
    }
    for (long k = 0; k < count; k += each, pedals++) {
        size_t blocks = pedal_read(word[1], k);
        if (!same(k, blocks < most ? blocks : most))
            return 1;
    }
    printf("%ld pedals, %lu samples, every byte the same from both; %lu refused\n", pedals, samples, refused);
    return 0;
}
