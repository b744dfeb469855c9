#include "kuifje_measure.h"

uint32_t product(uint32_t a, uint32_t b);
KUIFJE_SECRET(uint16_t, a, 1, 0, 40960);
volatile uint32_t result;
KUIFJE_MEASURE { result = product(a[0], 12345); return 0; }
