# Builds a program that needs io_uring, for the commands that set `name`, their own.
top=$(dirname "$(dirname "$(readlink -f "$0")")")
# as in repository.py
build=$top/build
[ -w "$top" ] || build=${XDG_CACHE_HOME:-${HOME-}/.cache}/yachtbanyan

case ${1-} in
    -h | --help)
        sed -n '2,/^set/{/^# /s///p}' "$0"
        exit
        ;;
esac

skip() {
    echo "$name: skipped: $1" >&2
    exit 77
}

# built PROGRAM CALL FILE..: builds a program of these files, which makes a call of liburing, unless
# it is newer than the sources
built() {
    program=$build/$1
    if [ -x "$program" ] && [ -z "$(find "$top"/kernel -name '*.[ch]' -newer "$program" -print -quit)" ]; then return; fi
    command -v cc > /dev/null || skip 'there is no C compiler cc'
    if ! echo '#include <liburing.h>' | cc -E -x c - 2> /dev/null | grep -q "$2"; then
        skip 'there is no liburing 2.3 or later (Debian: liburing-dev)'
    fi
    if ! mkdir -p "$build" 2> /dev/null || ! [ -w "$build" ]; then
        echo "$name: the program is built in $build, and you may not write to it" >&2
        exit 1
    fi
    # it is moved into place, so that two builds at once do no harm
    cc -O1 -Wall -Wextra -o "$program.$$" "${@:3}" -luring -lpthread || exit 1
    mv "$program.$$" "$program"
}
