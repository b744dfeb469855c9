#include <stdint.h>

/* What each character stands for: a table of 256 bytes, four lines of 64. */
_Alignas(64) int8_t meaning[256];

__attribute__((constructor)) static void fill(void)
{
    const char *characters = "ABCDEFGHIJKLMNOPQRSTUVWXYZabcdefghijklmnopqrstuvwxyz0123456789+/";
    for (int i = 0; i < 256; i++)
        meaning[i] = -1;
    for (int i = 0; i < 64; i++)
        meaning[(uint8_t)characters[i]] = (int8_t)i;
}

/* Decodes some characters to a number; -1 where one is none. */
int decode(const uint8_t *text, int n)
{
    int number = 0;
    for (int i = 0; i < n; i++) {
        int digit = meaning[text[i]];
        if (digit < 0)
            return -1;
        number = number << 6 | digit;
    }
    return number;
}
