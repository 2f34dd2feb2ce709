/*
 * Numbers as the wire has them, and the sum of RFC 1071, for the C programs of this folder and its neighbours.
 */
#ifndef NIULASSENC_CTEST_BYTES_H
#define NIULASSENC_CTEST_BYTES_H

#include <stddef.h>
#include <stdint.h>

static inline void put16(uint8_t *at, uint32_t value)
{
    at[0] = (uint8_t)(value >> 8);
    at[1] = (uint8_t)value;
}

static inline void put32(uint8_t *at, uint32_t value)
{
    put16(at, value >> 16);
    put16(at + 2, value & 0xffff);
}

/* The sum of RFC 1071 over some bytes, on top of `from`. */
static inline uint32_t sum(uint32_t from, const uint8_t *bytes, size_t length)
{
    for (size_t i = 0; i < length; i++)
        from += i % 2 ? bytes[i] : (uint32_t)bytes[i] << 8;
    while (from >> 16)
        from = (from & 0xffff) + (from >> 16);
    return from;
}

#endif
