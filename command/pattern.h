/* pattern.h: a float and its bit pattern, and numbers in bytes, lowest first. */
#ifndef PATTERN_H
#define PATTERN_H

#include <stdint.h>
#include <string.h>

/* The float of a pattern. */
static inline double value_of(uint64_t pattern)
{
    double value;
    memcpy(&value, &pattern, sizeof value);
    return value;
}

/* The pattern of a float. */
static inline uint64_t pattern_of(double value)
{
    uint64_t pattern;
    memcpy(&pattern, &value, sizeof pattern);
    return pattern;
}

/* The number in so many bytes, at most eight. */
static inline uint64_t load(const uint8_t *bytes, unsigned count)
{
    uint64_t number = 0;
    for (unsigned i = 0; i < count; i++)
        number |= (uint64_t)bytes[i] << (8 * i);
    return number;
}

static inline uint16_t load16(const uint8_t *bytes)
{
    return (uint16_t)load(bytes, 2);
}

static inline uint32_t load32(const uint8_t *bytes)
{
    return (uint32_t)load(bytes, 4);
}

/* Puts a number into so many bytes, at most eight. */
static inline void put(uint8_t *bytes, unsigned count, uint64_t number)
{
    for (unsigned i = 0; i < count; i++)
        bytes[i] = (uint8_t)(number >> (8 * i));
}

#endif
