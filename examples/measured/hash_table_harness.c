#include "kuifje_measure.h"

int known(uint16_t name);
KUIFJE_SECRET(uint16_t, name, 1, 0, 1023);
volatile int answer;
KUIFJE_MEASURE { answer = known(name[0]); return 0; }
