#include <stdint.h>
#include <string.h>

/* The message in a block 0, 2, bytes that aren't 0, 0, message, as in PKCS #1; its length, or a number below 0. */
int unpad(const uint8_t *block, int n, uint8_t *message)
{
    if (block[0] != 0)
        return -1;
    if (block[1] != 2)
        return -2;
    int i = 2;
    while (i < n && block[i] != 0)
        i++;
    if (i == n)
        return -3;
    memcpy(message, block + i + 1, n - i - 1);
    return n - i - 1;
}
