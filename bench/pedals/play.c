/* play FOLDER COUNT RUNS [each]: times the block on FOLDER/0.image with FOLDER/0.drives, then on 1, and so on. A line for each: what it was refused with, or 0;
   its blocks, and how many of them are slower than real time; nanoseconds a sample, in the mean and in its worst block; nanoseconds of its worst sample, and
   which one that is: of its slowest block, or the worst of all pedals so far, or with `each` the worst of all its blocks, which takes long.

   A host plays short blocks, and each of them has to be there in time. So every block is timed by itself, from the state that those before it left; of RUNS
   runs the least counts, since what else goes on in the machine can only add to it. */
#include <string.h>

#include "../timing.h"
#include "pedal.h"

#define BLOCKS (KRTOVALIN_SAMPLES / BLOCK)
/* The seconds that a block has at 48 kHz, and more than any takes. */
#define REAL_TIME (BLOCK / 48000.0)
#define UNTIMED 1e9

/* The state as each block begins. */
static uint8_t states[BLOCKS + 1][KRTOVALIN_STATE];
/* The worst sample of all so far, and what reading the clock costs. */
static double worst, reading = UNTIMED;

/* Plays the first n samples of a block, leaves the state after them and tells the number. `least` falls to what it took. */
static unsigned timed(size_t block, size_t n, uint8_t *after, double *least)
{
    memcpy(after, states[block], KRTOVALIN_STATE);
    double start = now();
    uint64_t answer = krtovalin_block(image, image_length, after, KRTOVALIN_STATE, n, drives + block * BLOCK * set, n * set, outputs, sizeof outputs);
    double spent = now() - start - reading;
    *least = spent < *least ? spent : *least;
    return KRTOVALIN_NUMBER(answer);
}

/* What the block takes that is looked at, up to each of its samples. */
static double took[BLOCK + 1];

static void time_up_to(size_t block, size_t n, int runs)
{
    uint8_t after[KRTOVALIN_STATE];
    while (runs-- > 0)
        timed(block, n, after, &took[n]);
}

/* What one sample adds to its block: the median of what a block with it takes more than one without, since two least times that come of
   different moments can differ by more than a sample. */
static double added(size_t block, size_t sample, int runs)
{
    enum { MOST_PAIRS = 99 };
    double more[MOST_PAIRS];
    uint8_t after[KRTOVALIN_STATE];
    int pairs = 5 * runs < MOST_PAIRS ? 5 * runs : MOST_PAIRS;
    for (int pair = 0; pair < pairs; pair++) {
        double without = UNTIMED, with = UNTIMED;
        timed(block, sample, after, &without);
        timed(block, sample + 1, after, &with);
        more[pair] = with - without;
    }
    qsort(more, (size_t)pairs, sizeof *more, ascending);
    return more[pairs / 2];
}

/* Looks for the sample from `low` on and before `high` that adds the most to its block, if it adds more than `most`; both ends have been timed. Within a block
   a sample begins at the voltages of the one before it, so it is not played alone: blocks that end before and after it are. Samples take no less
   together than each by itself, so that whole halves can be left out. What looks the worst is timed twice more before it is believed. */
static void search(size_t block, size_t low, size_t high, int runs, double *most, size_t *sample)
{
    if (took[high] - took[low] <= *most)
        return;
    if (high - low == 1) {
        double once = added(block, low, runs), again = once > *most ? added(block, low, runs) : once;
        double seconds = again < once ? again : once;
        if (seconds > *most) {
            *most = seconds;
            *sample = block * BLOCK + low;
        }
        return;
    }
    size_t middle = (low + high) / 2;
    time_up_to(block, middle, runs);
    int later = took[high] - took[middle] > took[middle] - took[low];
    search(block, later ? middle : low, later ? high : middle, runs, most, sample);
    search(block, later ? low : middle, later ? middle : high, runs, most, sample);
}

static void worst_sample(size_t block, int runs, double *most, size_t *sample)
{
    for (size_t n = 0; n <= BLOCK; n++)
        took[n] = UNTIMED;
    time_up_to(block, 0, runs);
    time_up_to(block, BLOCK, runs);
    search(block, 0, BLOCK, runs, most, sample);
}

static void play(size_t blocks, int runs, int each)
{
    double least[BLOCKS], all = 0, longest = 0;
    size_t slowest = 0, slow = 0, sample = 0;
    for (size_t b = 0; b < blocks; b++)
        least[b] = UNTIMED;
    for (int run = 0; run < runs; run++)
        for (size_t b = 0; b < blocks; b++) {
            unsigned number = timed(b, BLOCK, states[b + 1], &least[b]);
            if (number) {
                printf("%u 0 0 0 0 0 0\n", number);
                return;
            }
        }
    for (size_t b = 0; b < blocks; b++) {
        all += least[b];
        slow += least[b] > REAL_TIME;
        slowest = least[b] > least[slowest] ? b : slowest;
    }
    /* In the other blocks only what is worse than that, and than all so far, is looked for. */
    worst_sample(slowest, runs, &longest, &sample);
    worst = each || longest > worst ? longest : worst;
    for (size_t b = 0; b < blocks; b++) {
        double most = worst;
        if (b != slowest && least[b] > worst)
            worst_sample(b, runs, &most, &sample);
        if (most > worst)
            worst = longest = most;
    }
    printf("0 %zu %zu %.1f %.1f %.0f %zu\n", blocks, slow, 1e9 * all / (double)(blocks * BLOCK), 1e9 * least[slowest] / BLOCK, 1e9 * longest, sample);
}

int main(int words, char **word)
{
    int each = words == 5 && strcmp(word[4], "each") == 0, runs = words == 4 || each ? atoi(word[3]) : 0;
    long count = runs ? atol(word[2]) : 0;
    if (runs < 1 || count < 1) {
        fprintf(stderr, "play FOLDER COUNT RUNS [each]\n");
        return 1;
    }
    for (int i = 0; i < 1000; i++) {
        double start = now(), spent = now() - start;
        reading = spent < reading ? spent : reading;
    }
    for (long k = 0; k < count; k++) {
        play(pedal_read(word[1], k), runs, each);
        fflush(stdout);
    }
    return 0;
}
