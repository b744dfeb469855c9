#include <stdint.h>

/* g^e mod p by squaring; it always multiplies, and then selects. */
uint32_t power(uint32_t g, uint32_t e, int bits, uint32_t p)
{
    uint64_t r = 1;
    for (int i = bits - 1; i >= 0; i--) {
        r = r * r % p;
        uint64_t product = r * g % p;
        r = (e >> i & 1) ? product : r;
    }
    return (uint32_t)r;
}
