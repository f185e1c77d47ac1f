#include "greet.h"

const char *name(void) { return "world"; }
