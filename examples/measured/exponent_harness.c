#include "kuifje_measure.h"

uint32_t power(uint32_t g, uint32_t e, int bits, uint32_t p);
KUIFJE_SECRET(uint32_t, e, 1, 0, 4095);
volatile uint32_t result;
KUIFJE_MEASURE { result = power(7, e[0], 12, 65537); return 0; }
