#include <stdint.h>

/* A table of 256 words of four bytes, sixteen to a line of 64. */
_Alignas(64) uint32_t words[256];

__attribute__((constructor)) static void fill(void)
{
    for (uint32_t i = 0; i < 256; i++)
        words[i] = i * 2654435761u;
}

uint32_t look_up(uint8_t key, uint8_t plain)
{
    return words[key ^ plain];
}
