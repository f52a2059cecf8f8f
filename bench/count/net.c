/* net RUNS IMAGE DRIVES: nanoseconds that one net current of the output node takes as the block's last sample begins, the median of RUNS runs of at
   least a tenth of a second each.

   Wants the block that instrument.py laid open, which calls what is exported here. The node's voltage is set anew before each net current, to
   values next to each other in turn, so that none can be carried over to the next. */
#include <stdio.h>
#include <stdlib.h>
#include <string.h>

#include "../host/room.h"
#include "../timing.h"

#define PLACES 16
#define VALUES 16
#define ROUNDS 4096
/* Where the trailer has the output node. */
#define OUTPUT 12

int64_t bench_net(const void *circuit, const void *stored, const int64_t *volts, uint64_t node);
void bench_lent(const void *circuit, const int64_t *volts, const void *stored);

static size_t begun, samples;
static long runs;
static uint64_t node;

/* What a sample is lent, its voltages in an array of our own. */
struct lent {
    const void *circuit, *stored;
    int64_t volts[PLACES];
    volatile int64_t sum;
};

static void evaluate(void *lent)
{
    struct lent *at = lent;
    int64_t here = at->volts[node], sum = 0;
    for (int64_t i = 0; i < ROUNDS; i++) {
        at->volts[node] = here + i % VALUES - VALUES / 2;
        sum += bench_net(at->circuit, at->stored, at->volts, node);
    }
    at->volts[node] = here;
    at->sum = sum;
}

void bench_lent(const void *circuit, const int64_t *volts, const void *stored)
{
    struct lent lent = {circuit, stored, {0}, 0};
    if (++begun != samples)
        return;
    memcpy(lent.volts, volts, sizeof lent.volts);
    printf("%.2f\n", 1e9 * median((size_t)runs, evaluate, &lent) / ROUNDS);
}

int main(int words, char **word)
{
    uint8_t state[KRTOVALIN_STATE] = {0};
    if (words != 4 || (runs = atol(word[1])) < 1) {
        fprintf(stderr, "net RUNS IMAGE DRIVES\n");
        return 1;
    }
    size_t image_length = contents(word[2], image, sizeof image), drives_length = contents(word[3], drives, sizeof drives);
    /* Every circuit of the table has one driven node. */
    samples = drives_length / 4;
    node = image_length < TRAILER ? 0 : image[image_length - TRAILER + OUTPUT];
    uint64_t answer = krtovalin_block(image, image_length, state, sizeof state, samples, drives, drives_length, outputs, sizeof outputs);
    if (answer != samples || begun != samples) {
        fprintf(stderr, "answered %llu after %zu samples of %zu: a refusal, or not a block laid open\n", (unsigned long long)answer, begun, samples);
        return 1;
    }
    return 0;
}
