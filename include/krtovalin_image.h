/* Krtovalin: a netlist's text to its image, proved.
 *
 * For a tool on a desk, which reads a schematic and hands a pedal the image that krtovalin_block plays (krtovalin.h). A pedal's firmware
 * does not need it.
 *
 * Two functions. They keep no memory of their own: no heap, no globals, no locks, so that they may be called from any number of
 * threads at once, each with its own buffers. No pointer needs any alignment. The two buffers must not overlap. A pointer whose length
 * is 0 may be null.
 *
 * README.md, "From a schematic to sound", has the notation of a netlist. What the image means is what the netlist says: its
 * parts in their order, by the rules that the krtovalin_block of the same build tests, so that it refuses no such image by 1 to 6.
 *
 * An image has a version, 1 or 2. In version 2 every free node has a leak of 10 nS to ground in place of version 1's 1 nS, for inputs of high
 * impedance, which hum on the smaller one; nothing else differs. A netlist can't say its version: krtovalin_image writes version 2, and
 * krtovalin_image_version the one that it is given. Earlier builds of this library wrote version 1, and a block (krtovalin.h) that was built
 * before version 2 refuses its images by 2: ask for version 1 for pedals with such a block, and where a circuit has to sound as it did.
 *
 * Stack, measured over the netlists of the examples and of crates/netlist_main: 14,224 bytes on x86-64, at 16 open brackets;
 * 14,064 with the older toolchain. Allow 16 KiB.
 */
#ifndef KRTOVALIN_IMAGE_H
#define KRTOVALIN_IMAGE_H

#include <stdint.h>

#ifdef __cplusplus
extern "C" {
#endif

/* The longest image, in bytes: a buffer of so many is always enough. */
#define KRTOVALIN_IMAGE_MOST 1360

/* The longest text that is read, in bytes. */
#define KRTOVALIN_IMAGE_TEXT_MOST 65535

/* What an answer says: its number, and its count. */
#define KRTOVALIN_IMAGE_NUMBER(answer) ((unsigned)((answer) >> 32))
#define KRTOVALIN_IMAGE_COUNT(answer) ((unsigned)((answer) & 0xffffffff))

/* An answer's number, and what its count is beside it. */
enum krtovalin_image_number {
    KRTOVALIN_IMAGE_DONE = 0,                 /* the image was written; the count is its length */
    KRTOVALIN_IMAGE_REFUSED_HEADER = 2,       /* how many elements, curves and nodes there are, the drives, the output or the rate, or a version that is not 1 or 2; the count is 0, as for 3 to 6 */
    KRTOVALIN_IMAGE_REFUSED_SIZE = 3,         /* a curve has no breakpoint, or more than 16 */
    KRTOVALIN_IMAGE_REFUSED_CURVE = 4,        /* a curve's slope or breakpoint */
    KRTOVALIN_IMAGE_REFUSED_ELEMENT = 5,      /* an element's nodes or its curve */
    KRTOVALIN_IMAGE_REFUSED_CONDUCTANCE = 6,  /* a conductance outside its limit */
    KRTOVALIN_IMAGE_REFUSED_GRAMMAR = 14,     /* a line is no line of a netlist; the count is its number, from 1 on: the line after the last where one is missing, 0 for a text that is too long */
    KRTOVALIN_IMAGE_REFUSED_VALUE = 15,       /* a value, or what some part of it comes to, is 0 or above 4,294,967,295; the count is its line */
    KRTOVALIN_IMAGE_REFUSED_BUFFER = 16       /* the buffer is shorter than the image; the count is 0 */
};

/* Writes the image of the netlist in `text`, in version 2, to the start of `image`.
 *
 * text   any bytes whatever.
 * image  as many bytes as there are; those past the image keep their contents, and beside any number but 0 all of them do.
 *
 * Returns number x 2^32 + count. The first faulty line decides; where there is none, the lowest number that applies is given.
 */
uint64_t krtovalin_image(const uint8_t *text, uint64_t text_len,
                         uint8_t *image, uint64_t image_len);

/* The same in the version that is given. What stands against the text is told first, whatever the version is; then a version other than 1
 * and 2 is refused by 2, and last a buffer that is too short.
 */
uint64_t krtovalin_image_version(uint32_t version,
                                 const uint8_t *text, uint64_t text_len,
                                 uint8_t *image, uint64_t image_len);

#ifdef __cplusplus
}
#endif

#endif
