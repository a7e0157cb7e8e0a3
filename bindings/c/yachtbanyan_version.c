/* The version of libyachtbanyan, for programs, and for builds that read the library: a string that
 * what(1) finds. */
#include "yachtbanyan.h"

static const char identification[] = "@(#)yachtbanyan " YACHT_VERSION;

const char *yacht_version(void) { return identification + sizeof "@(#)yachtbanyan " - 1; }
