/* Whether this library is the proved one, which c/Makefile knows of each that it makes. */
#include "khe.h"

uint32_t khe_is_proved(void) { return IS_PROVED; }
