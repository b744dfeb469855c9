#include "kuifje_measure.h"

int equal(const uint8_t *a, const uint8_t *b, int n);
KUIFJE_SECRET(uint8_t, pin, 4, 0, 9);
const uint8_t guess[4] = {3, 1, 4, 1};
KUIFJE_MEASURE { return equal(pin, guess, 4); }
