#include <stdint.h>

/* A coefficient below q, rounded to a bit. */
uint32_t rounded(uint32_t coefficient, uint32_t q)
{
    return ((coefficient << 1) + q / 2) / q & 1;
}
