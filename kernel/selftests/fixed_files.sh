#!/bin/sh
# SPDX-License-Identifier: MIT
# Prints in KTAP which rules of io_uring's registered file table the running kernel keeps. Ends with
# status 0, 1 if a rule is broken otherwise than listed, or 4 if a tool is missing: the statuses of
# kselftest. SCRIPTS is the number of random scripts.
exec "$(dirname "$(readlink -f "$0")")/archive/conform" --scripts "${SCRIPTS:-100}" "$@"
