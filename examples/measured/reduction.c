#include <stdint.h>

/* a * b / 2^16 mod 40961 (Montgomery), with the subtraction at the end. */
uint32_t product(uint32_t a, uint32_t b)
{
    const uint32_t p = 40961, inverse = 40959;
    uint64_t t = (uint64_t)a * b;
    uint64_t u = (t + (uint64_t)(uint16_t)((uint32_t)t * inverse) * p) >> 16;
    if (u >= p)
        u -= p;
    return (uint32_t)u;
}
