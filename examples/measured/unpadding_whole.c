#include <stdint.h>

/* The same, where neither the block's bytes nor the message's place and length decide what is done: the message is moved a step at a time. */
int unpad(const uint8_t *block, int n, uint8_t *message)
{
    uint32_t bad = block[0] | (block[1] ^ 2), searching = 1, at = 0;
    for (int i = 2; i < n; i++) {
        uint32_t is_zero = ((uint32_t)block[i] - 1) >> 31;
        at |= (uint32_t)i & -(is_zero & searching);
        searching &= is_zero ^ 1;
        message[i] = block[i];
    }
    for (int step = 0; step < n; step++) {
        uint32_t moves = ((uint32_t)step - (at + 1)) >> 31;
        for (int i = 0; i < n - 1; i++)
            message[i] ^= (message[i] ^ message[i + 1]) & -moves;
    }
    uint32_t failed = -((-(bad | searching)) >> 31);
    return (int)(((uint32_t)n - at - 1) | failed);
}
