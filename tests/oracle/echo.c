// Puts out what it receives: the smallest turn that there is, for tests/oracle/clock.
#include "recall.h"

void handle(const char *text, unsigned length, int source, unsigned unit, unsigned home) { recall_output(text, length); }
