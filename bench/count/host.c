/* host IMAGE DRIVES: how many moves of a node a sample took, in the mean and at most, over one block.
   host --time RUNS [--block N] IMAGE DRIVES: nanoseconds per sample, the median of RUNS runs, each of at least a tenth of a second; in blocks of N samples.
   host --call RUNS IMAGE DRIVES: the same of a call of no samples.

   Counting wants the block that instrument.py went through, which calls what is exported here; timing wants the plain one. One block unless told,
   since only within a block does a sample begin at the voltages of the one before it. */
#include <stdio.h>
#include <stdlib.h>
#include <string.h>

#include "../host/room.h"
#include "../timing.h"

uint64_t bench_moves;
void bench_sample(void);

/* The count as each sample began, and after the last. */
static uint64_t marks[KRTOVALIN_SAMPLES + 1];
static size_t begun;

void bench_sample(void)
{
    marks[begun++] = bench_moves;
}

static size_t image_length, samples, block;

/* A call of n samples from where `done` are. A refused sample would end it early and make the numbers those of fewer samples. */
static void call(uint8_t *state, size_t done, size_t n)
{
    uint64_t answer = krtovalin_block(image, image_length, state, KRTOVALIN_STATE, n, drives + 4 * done, 4 * n, outputs + 4 * done, 4 * n);
    if (answer != n) {
        fprintf(stderr, "refused %u after %u\n", KRTOVALIN_NUMBER(answer), KRTOVALIN_COUNT(answer));
        exit(1);
    }
}

/* All samples from a fresh state, in blocks. */
static void play(void *unused)
{
    (void)unused;
    uint8_t state[KRTOVALIN_STATE] = {0};
    for (size_t done = 0; done < samples; done += block)
        call(state, done, samples - done < block ? samples - done : block);
}

/* So many calls of no samples that what reading the clock costs is lost in them. */
#define CALLS 256
static void call_empty(void *unused)
{
    (void)unused;
    uint8_t state[KRTOVALIN_STATE] = {0};
    for (int i = 0; i < CALLS; i++)
        call(state, 0, 0);
}

static void count(void)
{
    uint64_t greatest = 0;
    play(NULL);
    if (begun != samples) {
        fprintf(stderr, "%zu samples begun of %zu: not an instrumented block\n", begun, samples);
        exit(1);
    }
    marks[samples] = bench_moves;
    for (size_t j = 0; j < samples; j++)
        if (greatest < marks[j + 1] - marks[j])
            greatest = marks[j + 1] - marks[j];
    printf("%.1f %llu\n", (double)marks[samples] / (double)samples, (unsigned long long)greatest);
}

int main(int words, char **word)
{
    int empty = words == 5 && strcmp(word[1], "--call") == 0, parted = words == 7 && strcmp(word[3], "--block") == 0;
    long runs = empty || ((words == 5 || parted) && strcmp(word[1], "--time") == 0) ? atol(word[2]) : 0;
    if ((words != 3 && runs < 1) || (parted && atol(word[4]) < 1)) {
        fprintf(stderr, "host [--time RUNS [--block N] | --call RUNS] IMAGE DRIVES\n");
        return 1;
    }
    image_length = contents(word[words - 2], image, sizeof image);
    /* Every circuit of the table has one driven node. */
    samples = contents(word[words - 1], drives, sizeof drives) / 4;
    block = parted ? (size_t)atol(word[4]) : samples;
    if (samples == 0) {
        fprintf(stderr, "no samples\n");
        return 1;
    }
    if (runs)
        printf("%.1f\n", 1e9 * median((size_t)runs, empty ? call_empty : play, NULL) / (double)(empty ? CALLS : samples));
    else
        count();
    return 0;
}
