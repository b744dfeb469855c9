#include <stdint.h>

static const uint16_t names[12] = {3, 17, 99, 256, 301, 512, 700, 801, 850, 901, 1000, 1023};

/* Is this name known? All names are looked at. */
int known(uint16_t name)
{
    uint32_t found = 0;
    for (int i = 0; i < 12; i++)
        found |= ((uint32_t)(names[i] ^ name) - 1) >> 31;
    return (int)found;
}
