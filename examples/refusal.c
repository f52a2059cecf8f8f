/* Goes on after a refusal, as a pedal has to: a step of 1 V into 1,000 ohm and 10,000 pF, one of whose drives is beyond its limit.
 *
 * What was played before the refused sample stands, in the outputs and in the state. So the refused sample repeats the output before it, its drive
 * is dropped, and the rest of the block goes on from that state: 510203, then 510203 once more, then 1009994, as if the sample had not been. */
#include <stdio.h>

#include "bytes.h"
#include "krtovalin.h"

static const uint8_t image[] = {
    /* elements: kind, p, q, curve, value */
    1, 1, 2, 0, 0xE8, 0x03, 0, 0,
    2, 2, 0, 0, 0x10, 0x27, 0, 0,
    /* trailer */
    16, 0, 0, 0, 2, 0, 2, 1, 0x80, 0xBB, 0, 0, 2, 1, 16, 0,
};

/* What a pedal keeps from one block to the next: the circuit's state, and the last output. */
struct pedal {
    uint8_t state[KRTOVALIN_STATE];
    int32_t last;
};

/* Plays a whole block, whatever is refused in it. False if nothing can be played: the image, the state or a length is wrong, and would be in the next
 * call too. */
static int play(struct pedal *pedal, unsigned samples, const uint8_t *drives, uint8_t *outputs)
{
    unsigned done = 0;
    for (;;) {
        unsigned left = samples - done;
        uint64_t answer = krtovalin_block(image, sizeof image, pedal->state, sizeof pedal->state, left,
                                          drives + 4 * done, 4 * left, outputs + 4 * done, 4 * left);
        unsigned count = KRTOVALIN_COUNT(answer);
        done += count;
        if (count > 0)
            pedal->last = get(outputs + 4 * (done - 1));
        switch (KRTOVALIN_NUMBER(answer)) {
        case KRTOVALIN_DONE:
            return 1;
        case KRTOVALIN_REFUSED_DRIVE:
        case KRTOVALIN_REFUSED_RAIL:
        case KRTOVALIN_REFUSED_STORED:
            fprintf(stderr, "sample %u is refused by number %u\n", done, KRTOVALIN_NUMBER(answer));
            put(outputs + 4 * done, pedal->last);
            done++;
            break;
        default:
            fprintf(stderr, "refused by number %u\n", KRTOVALIN_NUMBER(answer));
            return 0;
        }
    }
}

int main(void)
{
    enum { samples = 6 };
    static const int32_t volts[samples] = {1000000, 20000000, 1000000, 1000000, 1000000, 1000000};
    struct pedal pedal = {{0}, 0};
    uint8_t drives[4 * samples], outputs[4 * samples];
    for (int i = 0; i < samples; i++)
        put(drives + 4 * i, volts[i]);
    if (!play(&pedal, samples, drives, outputs))
        return 1;
    for (int i = 0; i < samples; i++)
        printf("%d\n", (int)get(outputs + 4 * i));
    return 0;
}
