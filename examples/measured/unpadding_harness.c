#include "kuifje_measure.h"

int unpad(const uint8_t *block, int n, uint8_t *message);
KUIFJE_SECRET(uint8_t, block, 8, 0, 2);
uint8_t message[8];
volatile int length;
KUIFJE_MEASURE { length = unpad(block, 8, message); return 0; }
