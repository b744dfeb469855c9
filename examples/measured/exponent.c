#include <stdint.h>

/* g^e mod p by squaring; where a bit of e is 1, it multiplies. */
uint32_t power(uint32_t g, uint32_t e, int bits, uint32_t p)
{
    uint64_t r = 1;
    for (int i = bits - 1; i >= 0; i--) {
        r = r * r % p;
        if (e >> i & 1)
            r = r * g % p;
    }
    return (uint32_t)r;
}
