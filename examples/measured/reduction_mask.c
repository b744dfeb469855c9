#include <stdint.h>

/* The same; what is subtracted is p or 0, by a mask. */
uint32_t product(uint32_t a, uint32_t b)
{
    const uint32_t p = 40961, inverse = 40959;
    uint64_t t = (uint64_t)a * b;
    uint32_t u = (uint32_t)((t + (uint64_t)(uint16_t)((uint32_t)t * inverse) * p) >> 16) - p;
    return u + (p & -(u >> 31));
}
