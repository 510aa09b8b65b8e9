/* Bytes read several at a time. */

#ifndef LOAD_H
#define LOAD_H

#include <stdint.h>

/* Eight bytes as a number, the first as its lowest digits. */
static inline uint64_t load(const unsigned char *bytes)
{
    return (uint64_t)bytes[0] | (uint64_t)bytes[1] << 8 | (uint64_t)bytes[2] << 16 | (uint64_t)bytes[3] << 24
        | (uint64_t)bytes[4] << 32 | (uint64_t)bytes[5] << 40 | (uint64_t)bytes[6] << 48 | (uint64_t)bytes[7] << 56;
}

/* Two bytes as a number, the first as its lowest digits. */
static inline unsigned load_two(const unsigned char *bytes)
{
    return (unsigned)bytes[0] | (unsigned)bytes[1] << 8;
}

#endif
