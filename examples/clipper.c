/* Plays a sine through a diode clipper, block by block, and stops at the first refusal (refusal.c goes on after one).
 * 1,000 ohm from driven node 1 to node 2; from node 2 to ground a diode that opens at 600 mV, and one the other way round. */
#include <math.h>
#include <stdio.h>

#include "bytes.h"
#include "krtovalin.h"

static const uint8_t image[] = {
    /* elements: kind, p, q, curve, value */
    1, 1, 2, 0, 0xE8, 0x03, 0, 0,
    4, 2, 0, 0, 0, 0, 0, 0,
    4, 0, 2, 0, 0, 0, 0, 0,
    /* the curve: one breakpoint at 600,000 microvolts, slope 0 below it and 10,000,000 nS above */
    1, 0, 0, 0, 0, 0, 0, 0, 0x80, 0x96, 0x98, 0x00, 0xC0, 0x27, 0x09, 0x00,
    /* trailer */
    40, 0, 16, 0, 3, 1, 2, 1, 0x80, 0xBB, 0, 0, 2, 1, 16, 0,
};

int main(void)
{
    enum { samples = 64, blocks = 4 };
    uint8_t state[KRTOVALIN_STATE] = {0}, drives[4 * samples], outputs[4 * samples];

    for (int b = 0; b < blocks; b++) {
        for (int i = 0; i < samples; i++)
            put(drives + 4 * i, (int32_t)lrint(2e6 * sin((b * samples + i) * 0.13)));
        uint64_t answer = krtovalin_block(image, sizeof image, state, sizeof state, samples,
                                          drives, sizeof drives, outputs, sizeof outputs);
        for (unsigned i = 0; i < KRTOVALIN_COUNT(answer); i++)
            printf("%d\n", (int)get(outputs + 4 * i));
        if (KRTOVALIN_NUMBER(answer) != KRTOVALIN_DONE) {
            fprintf(stderr, "block %d: refused by number %u after %u samples\n", b, KRTOVALIN_NUMBER(answer), KRTOVALIN_COUNT(answer));
            return 1;
        }
    }
    return 0;
}
