#include "kuifje_measure.h"

uint32_t look_up(uint8_t key, uint8_t plain);
KUIFJE_SECRET(uint8_t, key, 1, 0, 255);
volatile uint32_t word;
KUIFJE_MEASURE { word = look_up(key[0], 0x5a); return 0; }
