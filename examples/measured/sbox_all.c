#include <stdint.h>

_Alignas(64) uint32_t words[256];

__attribute__((constructor)) static void fill(void)
{
    for (uint32_t i = 0; i < 256; i++)
        words[i] = i * 2654435761u;
}

/* All entries are read, and the right one is kept. */
uint32_t look_up(uint8_t key, uint8_t plain)
{
    uint32_t found = 0, wanted = key ^ plain;
    for (uint32_t i = 0; i < 256; i++)
        found |= words[i] & -(((i ^ wanted) - 1) >> 31);
    return found;
}
