/* The version of libyachtjudge, for programs, and for builds that read the library: a string that
 * what(1) finds. */
#include "yachtjudge.h"

static const char identification[] = "@(#)yachtjudge " YACHT_JUDGE_VERSION;

const char *yacht_judge_version(void) { return identification + sizeof "@(#)yachtjudge " - 1; }
