/* The second program's block, and its images of a netlist, for a host test that holds others against them. */
#ifndef SECOND_H
#define SECOND_H

#include <stddef.h>
#include <stdint.h>

/* Number x 65,536 + count, with the state and outputs of document 01. */
uint64_t second_block(const uint8_t *image, size_t image_length, uint8_t *state, size_t state_length, uint64_t n,
                      const uint8_t *drives, size_t drives_length, uint8_t *outputs, size_t outputs_length);

/* Number x 2^32 + count, with the image of document 02 at the buffer's start. */
uint64_t second_image(const uint8_t *text, size_t text_length, uint8_t *image, size_t image_length);

/* The same in a version. */
uint64_t second_image_version(uint32_t version, const uint8_t *text, size_t text_length, uint8_t *image, size_t image_length);

#endif
