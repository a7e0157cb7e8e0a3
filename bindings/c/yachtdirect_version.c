/* The version of libyachtdirect, for programs, and for builds that read the library: a string that
 * what(1) finds. */
#include "yachtdirect.h"

static const char identification[] = "@(#)yachtdirect " YACHT_DIRECT_VERSION;

const char *yacht_direct_version(void) { return identification + sizeof "@(#)yachtdirect " - 1; }
