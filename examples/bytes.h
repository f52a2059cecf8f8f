/* A voltage in a block's bytes: an int32_t, little-endian, whatever the host's own order is. */
#ifndef BYTES_H
#define BYTES_H

#include <stdint.h>

static void put(uint8_t *at, int32_t v)
{
    uint32_t u = (uint32_t)v;
    for (int i = 0; i < 4; i++)
        at[i] = (uint8_t)(u >> (8 * i));
}

static int32_t get(const uint8_t *at)
{
    uint32_t u = 0;
    for (int i = 0; i < 4; i++)
        u |= (uint32_t)at[i] << (8 * i);
    return (int32_t)u;
}

#endif
