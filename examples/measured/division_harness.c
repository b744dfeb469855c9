#include "kuifje_measure.h"

uint32_t rounded(uint32_t coefficient, uint32_t q);
KUIFJE_SECRET(uint16_t, coefficient, 1, 0, 3328);
volatile uint32_t bit;
KUIFJE_MEASURE { bit = rounded(coefficient[0], 3329); return 0; }
