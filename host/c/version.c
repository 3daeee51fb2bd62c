/* The library's version: the one part of it that is not proved, and that no call uses. */
#include "jirvuntsag.h"

const char *jirvuntsag_version(void) { return JIRVUNTSAG_VERSION; }
