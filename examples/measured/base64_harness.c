#include "kuifje_measure.h"

int decode(const uint8_t *text, int n);
KUIFJE_SECRET(uint8_t, six, 2, 0, 63);
uint8_t text[2];
volatile int number;

/* Encoding is part of the harness: by arithmetic, which no line shows. */
static uint8_t encoded(uint8_t d)
{
    return (uint8_t)(d + 'A' + ((25 - d) >> 8 & 6) - ((51 - d) >> 8 & 75) - ((61 - d) >> 8 & 15) + ((62 - d) >> 8 & 3));
}

KUIFJE_MEASURE
{
    text[0] = encoded(six[0]);
    text[1] = encoded(six[1]);
    number = decode(text, 2);
    return 0;
}
