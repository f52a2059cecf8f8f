/* host LIST: how many bytes of stack the block touched at its deepest, over the files NAME.image and NAME.drives of each NAME that is a line of LIST.

   The block runs on a stack that is painted first; what is not as painted afterwards was touched. A call that plays nothing but
   has the same frame around it is measured alike, and the difference is the block's own. */
#define _GNU_SOURCE
#include <stdio.h>
#include <stdlib.h>
#include <string.h>

#include "../host/room.h"

#define STACK (1 << 17)
#define PAINT 0xa5

static uint8_t state[KRTOVALIN_STATE];
static size_t image_length, drives_length, samples;
static _Alignas(4096) uint8_t stack[STACK];

static void *nothing(void *unused)
{
    return unused;
}

static void *block(void *unused)
{
    krtovalin_block(image, image_length, state, sizeof state, samples, drives, drives_length, outputs, sizeof outputs);
    return unused;
}

#if defined(__ARM_ARCH_PROFILE) && __ARM_ARCH_PROFILE == 'M'
/* A small chip has no threads, and its stack pointer can be moved. */
static void run_on_stack(void *(*job)(void *))
{
    __asm__ volatile("mov r4, sp\n\tmov sp, %0\n\tblx %1\n\tmov sp, r4"
                     :
                     : "r"(stack + STACK), "r"(job)
                     : "r0", "r1", "r2", "r3", "r4", "r12", "lr", "cc", "memory");
}
#else
#include <pthread.h>

static void run_on_stack(void *(*job)(void *))
{
    pthread_attr_t attributes;
    pthread_t thread;
    if (pthread_attr_init(&attributes) || pthread_attr_setstack(&attributes, stack, STACK) ||
        pthread_create(&thread, &attributes, job, NULL) || pthread_join(thread, NULL))
        exit(1);
    pthread_attr_destroy(&attributes);
}
#endif

/* How deep this goes. */
static size_t depth(void *(*job)(void *))
{
    size_t untouched = 0;
    memset(stack, PAINT, STACK);
    run_on_stack(job);
    while (untouched < STACK && stack[untouched] == PAINT)
        untouched++;
    return STACK - untouched;
}

/* The bytes of the file of this name and kind. */
static size_t file(const char *name, const char *kind, uint8_t *bytes, size_t room)
{
    char path[256];
    snprintf(path, sizeof path, "%s.%s", name, kind);
    return contents(path, bytes, room);
}

int main(int words, char **word)
{
    char name[200];
    size_t deepest = 0, calls = 0;
    FILE *list = words == 2 ? fopen(word[1], "r") : NULL;
    if (!list)
        return 1;
    for (; fscanf(list, "%199s", name) == 1; calls++) {
        memset(state, 0, sizeof state);
        image_length = file(name, "image", image, sizeof image);
        drives_length = file(name, "drives", drives, sizeof drives);
        /* Too many samples would be refused before any is played. */
        unsigned driven = image_length < TRAILER ? 0 : image[image_length - TRAILER + DRIVEN];
        samples = driven ? drives_length / 4 / driven : 1;
        if (samples > KRTOVALIN_SAMPLES)
            samples = KRTOVALIN_SAMPLES;
        size_t now = depth(block);
        if (deepest < now)
            deepest = now;
    }
    printf("%lu bytes of stack at most, over %lu calls\n", (unsigned long)(deepest - depth(nothing)), (unsigned long)calls);
    return 0;
}
