#include <stdint.h>

/* All ones where low <= c <= high, else 0. */
static int within(int c, int low, int high)
{
    return ((low - 1 - c) & (c - high - 1)) >> 31;
}

/* Decodes some characters to a number by arithmetic alone; -1 where one is none. */
int decode(const uint8_t *text, int n)
{
    int number = 0, bad = 0;
    for (int i = 0; i < n; i++) {
        int c = text[i];
        int digit = (within(c, 'A', 'Z') & (c - 'A')) | (within(c, 'a', 'z') & (c - 'a' + 26)) | (within(c, '0', '9') & (c - '0' + 52)) |
                    (within(c, '+', '+') & 62) | (within(c, '/', '/') & 63);
        bad |= ~(within(c, 'A', 'Z') | within(c, 'a', 'z') | within(c, '0', '9') | within(c, '+', '+') | within(c, '/', '/'));
        number = number << 6 | digit;
    }
    return number | bad;
}
