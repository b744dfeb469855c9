#include <stdint.h>

/* Are these bytes the same? It looks at all of them. */
int equal(const uint8_t *a, const uint8_t *b, int n)
{
    uint8_t difference = 0;
    for (int i = 0; i < n; i++)
        difference |= a[i] ^ b[i];
    return difference == 0;
}
