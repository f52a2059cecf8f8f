/* float [--kept] IMAGE DRIVES: the output node's voltage in microvolts, one line per sample.
   float [--kept] --time RUNS [--block N] IMAGE DRIVES: nanoseconds per sample, the median of RUNS runs, each of at least a tenth of a second; in blocks of N
   samples, or in a single one.

   --kept eliminates only where the matrix has changed, in place of each round of Newton. */
#include "../timing.h"
#include "simulate.h"

#include <stdio.h>
#include <stdlib.h>
#include <string.h>

static uint8_t *contents(const char *name, size_t *length)
{
    FILE *file = fopen(name, "rb");
    if (!file) {
        perror(name);
        exit(1);
    }
    fseek(file, 0, SEEK_END);
    *length = (size_t)ftell(file);
    rewind(file);
    uint8_t *bytes = malloc(*length + 1);
    if (!bytes || fread(bytes, 1, *length, file) != *length) {
        perror(name);
        exit(1);
    }
    fclose(file);
    return bytes;
}

/* What a rendering goes through, from a fresh state. */
struct rendering {
    const struct circuit *circuit;
    const double *drives;
    size_t samples, block;
    double *outputs;
    enum way way;
};

static void render(void *what)
{
    const struct rendering *r = what;
    struct simulation simulation;
    simulation_start(&simulation, r->circuit, r->way);
    for (size_t done = 0; done < r->samples; done += r->block) {
        size_t left = r->samples - done;
        simulate(&simulation, r->drives + done * (size_t)r->circuit->driven, left < r->block ? left : r->block, r->outputs + done);
    }
}

static int usage(void)
{
    fprintf(stderr, "float [--kept] [--time RUNS [--block N]] IMAGE DRIVES\n");
    return 1;
}

int main(int count, char **words)
{
    enum way way = TEXTBOOK;
    long runs = 0, block = 0;
    int at = 1;
    for (; at < count - 2; at++) {
        if (strcmp(words[at], "--kept") == 0)
            way = KEPT;
        else if (strcmp(words[at], "--time") == 0 && (runs = atol(words[at + 1])) > 0)
            at++;
        else if (strcmp(words[at], "--block") == 0 && (block = atol(words[at + 1])) > 0)
            at++;
        else
            return usage();
    }
    if (at != count - 2)
        return usage();
    size_t image_length, drives_length;
    uint8_t *image = contents(words[count - 2], &image_length), *bytes = contents(words[count - 1], &drives_length);
    struct circuit circuit;
    circuit_read(&circuit, image, image_length);
    size_t samples = circuit.driven ? drives_length / 4 / (size_t)circuit.driven : 0;
    double *drives = malloc((samples * (size_t)circuit.driven + 1) * sizeof *drives);
    double *outputs = malloc((samples + 1) * sizeof *outputs);
    for (size_t i = 0; i < samples * (size_t)circuit.driven; i++) {
        const uint8_t *place = bytes + 4 * i;
        drives[i] = (int32_t)(place[0] | place[1] << 8 | place[2] << 16 | (uint32_t)place[3] << 24);
    }

    if (runs > 0 && samples > 0) {
        struct rendering rendering = {&circuit, drives, samples, block ? (size_t)block : samples, outputs, way};
        printf("%.1f ns per sample\n", 1e9 * median((size_t)runs, render, &rendering) / (double)samples);
        return 0;
    }
    struct simulation simulation;
    simulation_start(&simulation, &circuit, way);
    long restless = simulate(&simulation, drives, samples, outputs);
    for (size_t i = 0; i < samples; i++)
        printf("%.6f\n", outputs[i]);
    if (restless)
        fprintf(stderr, "%ld samples where Newton did not come to rest\n", restless);
    return 0;
}
