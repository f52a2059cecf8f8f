/* Krtovalin: circuit modelling in whole microvolts, proved.
 *
 * One function. It keeps no memory of its own: no heap, no globals, no locks, so that it may be called from any number of
 * threads or interrupt levels at once, each with its own buffers. No pointer needs any alignment. The buffers must not overlap,
 * except that image and drives, which are only read, may. A pointer whose length is 0 may be null.
 *
 * How far to trust an output. It is proved for one accepted sample, of the network that the image means, with the drives and the stored
 * currents of that sample: the voltages are the highest whole microvolts at which no free node's net current is above zero, never above
 * any other solution, and below it by less than B microvolts, which the program `bound` computes from an image; B is small only where
 * every free node is well held by ground and driven nodes. No bound is promised on the drift over a run, in which stored currents
 * differ too. And the network is not the circuit on a bench: every free node leaks 1 nS or 10 nS to
 * ground, conductances are whole nanosiemens, curves are straight between breakpoints, and the trapezoidal rule answers an edge with
 * voltages that zigzag from sample to sample. README.md has examples.
 *
 * Images of versions 1 and 2 are played, and any other is refused by 2. They differ in the leak alone, which every free node has to ground:
 * 1 nS in version 1, and 10 nS in version 2, for inputs of high impedance, which hum on the smaller one.
 *
 * A conductance is the nearest whole number of nanosiemens, halves upward: at most half a nanosiemens from the part's. Earlier builds of
 * this library took the next whole number below, so that an element whose conductance had a fraction of a half or more has 1 nS more here
 * and an old image may sound a hair different. Refusal 6 now lets resistors pass up to 2 x 10^9 ohms (10^9 before) and inductors however
 * large, and refuses a capacitor from 2^30 + 1/2 nS on (from 2^30 + 1 before). README.md has examples.
 *
 * Blocks can be cut anywhere: an accepted block of n samples and then one of m, with the state that the first left, answer and leave
 * together what one of n + m does, where that is not refused by 8.
 *
 * Stack, measured over all circuits of bench/cases: 26,232 bytes on x86-64. With the older toolchain it was 29,240 there and 28,112 on a
 * 64-bit Arm; on a Cortex-M7 it was some 300 bytes less than there before net currents were kept, and has not been measured since. Allow
 * 32 KiB.
 */
#ifndef KRTOVALIN_H
#define KRTOVALIN_H

#include <stddef.h>
#include <stdint.h>

#if defined(__cplusplus) && __cplusplus >= 201103L
#define KRTOVALIN_ASSERT(fact, words) static_assert(fact, words)
#elif defined(__STDC_VERSION__) && __STDC_VERSION__ >= 201112L
#define KRTOVALIN_ASSERT(fact, words) _Static_assert(fact, words)
#else
#define KRTOVALIN_ASSERT(fact, words) typedef char krtovalin_assert[(fact) ? 1 : -1]
#endif

#ifdef __cplusplus
extern "C" {
#endif

/* The version of this interface, raised by each change that a host has to follow. An image has a version of its own. */
#define KRTOVALIN_VERSION 1

/* The length of a state: 32 stored currents, an int64_t each, little-endian, in femtoamperes. A fresh state is all zeros. */
#define KRTOVALIN_STATE 256

/* The most samples a block may have. */
#define KRTOVALIN_SAMPLES 4096

/* What an answer says: its number and its count of samples written. */
#define KRTOVALIN_NUMBER(answer) ((unsigned)((answer) >> 16))
#define KRTOVALIN_COUNT(answer) ((unsigned)((answer) & 0xffff))

/* An answer's number. */
enum krtovalin_number {
    KRTOVALIN_DONE = 0,                /* all n samples were played; the count is n */
    KRTOVALIN_REFUSED_LENGTH = 1,      /* the image is shorter than 24 or longer than 1,360 bytes */
    KRTOVALIN_REFUSED_TRAILER = 2,     /* a field of the image's trailer other than its distances is outside its range, the version (1 or 2) among them */
    KRTOVALIN_REFUSED_SIZES = 3,       /* a distance, a length or a curve's size does not fit exactly */
    KRTOVALIN_REFUSED_CURVE = 4,       /* a curve's padding, slope or breakpoint */
    KRTOVALIN_REFUSED_ELEMENT = 5,     /* an element's field */
    KRTOVALIN_REFUSED_CONDUCTANCE = 6, /* a conductance outside its limit */
    KRTOVALIN_REFUSED_STATE = 7,       /* the state: another length, a stored current beyond its limit, or one where none can be */
    KRTOVALIN_REFUSED_LENGTHS = 8,     /* n above 4,096, too few drives, or too few output places */
    KRTOVALIN_REFUSED_DRIVE = 9,       /* a drive of the sample is beyond 16,777,216 microvolts either way */
    KRTOVALIN_REFUSED_RAIL = 10,       /* no voltages in range, or a free node at the top of the range */
    KRTOVALIN_REFUSED_STORED = 11      /* a new stored current beyond its limit */
};

/* The code takes each length as 64 bits on every processor, so that is what is declared; any size_t goes into it. */
KRTOVALIN_ASSERT(sizeof(uint64_t) == 8 && sizeof(size_t) <= 8 && sizeof(void *) <= 8, "lengths and addresses are of 64 bits at the most");

/* Plays a block of n samples of the circuit in `image`.
 *
 * drives   n times d int32_t, little-endian, in microvolts: sample by sample, nodes 1 to d in turn (d is the image's driven
 *          count). An incomplete last four and surplus bytes are ignored.
 * outputs  n int32_t, little-endian: the output node's voltage in microvolts. Bytes past the count keep their contents.
 * state    exactly KRTOVALIN_STATE bytes, carried from one block to the next. It is written only when the count is above 0.
 *
 * Returns number x 65,536 + count. The lowest number that applies is given. With 1 to 8 the count is 0 and nothing is written. With 9
 * to 11 the count is the number of samples before the refused one: those are in outputs, and state is the state after them; a host
 * may go on from there (examples/refusal.c). n may be 0, and is then accepted if everything else is.
 */
uint64_t krtovalin_block(const uint8_t *image, uint64_t image_len,
                         uint8_t *state, uint64_t state_len,
                         uint64_t n,
                         const uint8_t *drives, uint64_t drives_len,
                         uint8_t *outputs, uint64_t outputs_len);

#ifdef __cplusplus
}
#endif

#endif
