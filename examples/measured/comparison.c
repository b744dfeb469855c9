#include <stdint.h>

/* Are these bytes the same? It stops at the first difference. */
int equal(const uint8_t *a, const uint8_t *b, int n)
{
    for (int i = 0; i < n; i++)
        if (a[i] != b[i])
            return 0;
    return 1;
}
