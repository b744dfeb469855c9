#include <stdint.h>

/* The same for one q, so that a compiler may multiply in place of dividing. */
uint32_t rounded(uint32_t coefficient, uint32_t q)
{
    (void)q;
    return ((coefficient << 1) + 3329 / 2) / 3329 & 1;
}
