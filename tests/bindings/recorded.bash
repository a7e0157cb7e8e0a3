# The parts of tests/check-bindings that record tables (bindings/recorder) and have their logs
# judged (bindings/python/yachtlog.py).
recorder=$PWD/build/bindings/recorder

builds_recorder() {
    rm -rf "$room/bindings" && mkdir "$room/bindings" && cp -r bindings/rust bindings/recorder "$room/bindings" || return 1
    (cd "$room/bindings/recorder" && CARGO_TARGET_DIR=$recorder YACHTBANYAN_LIB_DIR=$libraries cargo build --release --offline --quiet --bins --examples)
}

# judged WORD: the verdict on the log is this word; a log that breaks the rules is named by its line
judged() {
    YACHTBANYAN_LIB_DIR=$libraries python3 -B bindings/python/yachtlog.py "$room/log" > "$room/verdict"
    grep -qE "^$room/log: $1(: line [0-9]+: .*)?$" "$room/verdict" || { head -c 500 "$room/verdict"; return 1; }
}

records() {
    timeout "${limit:-120}" "$recorder/release/recorder" "$@" > "$room/log"
}

# refuses_arguments PROGRAM WORDS ARGUMENT..: a recorder prints these words and no log
refuses_arguments() {
    "$recorder/release/$1" "${@:3}" > "$room/log" 2> "$room/found"
    [ $? -eq 2 ] && [ ! -s "$room/log" ] && grep -qxF "${1##*/}: $2" "$room/found"
}

ends_early() {
    (cd "$room/bindings/recorder" && CARGO_TARGET_DIR=$recorder timeout 300 cargo test --offline --quiet --no-default-features --test cut)
}

# legal TABLE NUMBER..: the logs of three seeds are legal
legal() {
    local seed
    for seed in 1 2 3; do
        records "$1" "$seed" "${@:2}" && judged legal || return 1
    done
}

reasoned() {
    YACHTBANYAN_LIB_DIR=$libraries scripts/run tests.reasons "$1"
}

# found TABLE [none]: one of twenty logs is not legal, and its reason, if one is found, is right
found() {
    local seed
    for seed in {1..20}; do
        records "$1" "$seed" 3 20 300 3 || return 1
        judged 'not legal' > /dev/null || continue
        reasoned "$room/log"
        case $?${2-} in 0* | 2none) return 0 ;; 1*) return 1 ;; esac
    done
    return 1
}

# in_turns TABLE SLOTS: threads in turns (tests/step.c); a seed that takes too long is skipped
in_turns() {
    local seed
    gcc -O2 -shared -fPIC tests/step.c -o "$room/step.so" -ldl || return 1
    for seed in 1 2 3 4 5 6; do
        SEED=$seed TURN=30 LD_PRELOAD=$room/step.so limit=150 records "$1" "$seed" 3 2 20 "$2" || continue
        judged legal && return
        return 1
    done
    return 1
}

recorded() {
    want 'the recorder is not built' builds_recorder
    want 'a bound or a lifetime of the recorder is wrong' over_the_library "$room/bindings/recorder" "$recorder" --doc bounds
    want 'a recorder without arguments says something else' refuses_arguments recorder 'no table is given'
    want 'a number of threads that is none is not refused' refuses_arguments recorder "THREADS is a number from 1 to 64, not '0'" slots 1 0
    want 'a table by keys with too few slots is not refused' refuses_arguments recorder "SLOTS is a number from 600 to 1048576, not '64'" c-keys 1 3 2 100 64
    want 'a table that there is none of is not refused' refuses_arguments recorder \
        "TABLE is yachtbanyan, c, keys, c-keys, slots, stale, early, walk, or, wrong at one of N calls, stale:N, early:N, lost:N, take:N or full:N, \
not 'none'" none 1
    want 'a seed of the example that is none is not refused' refuses_arguments examples/cached "SEED is a number from 0 to 4294967295, not 'abc'" abc
    want 'a word of the example that is none is not refused' refuses_arguments examples/cached "'rihgt' is not 'right'" 2 rihgt
    want 'a recording of a table that panics or never returns has no log' ends_early
    want 'a log of the Rust crate is not legal' legal yachtbanyan 3 20 300 3
    want 'a log of the Rust crate with one slot is not legal' legal yachtbanyan 4 20 200 1
    want 'a log of the C library is not legal' legal c 3 20 300 3
    want 'a log of a table of std is not legal' legal slots 3 20 300 3
    want 'a log of the Rust crate by keys is not legal' legal keys
    want 'a log of the C library by keys is not legal' legal c-keys
    want 'a log of the Rust crate in turns is not legal' in_turns yachtbanyan 2
    want 'a log of the C library in turns is not legal' in_turns c 2
    want 'a log of the Rust crate by keys in turns is not legal' in_turns keys 120
    want 'a log of the C library by keys in turns is not legal' in_turns c-keys 120
}

wrong_recorded() {
    want 'a look from an old copy is not noticed' found stale
    want 'a value that is dropped in use is not noticed' found early
    want 'a table that says full after one walk is not noticed' found walk none
    want 'a value of a hundred that is never dropped is not noticed' found lost:100
    want 'a removal of a hundred that says the opposite is not noticed' found take:100
    want 'a put of a hundred that says full is not noticed' found full:100
}

slab_recorded() {
    want 'that sharded-slab removes a key twice is not noticed' slab_found
    want 'a seed of the slab that is none is not refused' refuses_arguments record_sharded_slab "SEED is a number from 0 to 4294967295, not 'abc'" abc
}

slab_found() {
    local seed
    # it needs no library
    (cd "$room/bindings/recorder/examples/sharded_slab" && CARGO_TARGET_DIR=$recorder YACHTBANYAN_LIB_DIR=/nonexistent cargo build --release --offline --quiet \
        --config 'source.crates-io.replace-with = "distribution"' --config 'source.distribution.directory = "/usr/share/cargo/registry"') || return 1
    for seed in {1..20}; do
        timeout 60 "$recorder/release/record_sharded_slab" "$seed" > "$room/log" || return 1
        judged 'not legal' > /dev/null && return
    done
    return 1
}

# makes_example C|C++|Python [SED [HEADER_SED]]: the example table in a language, with a change of
# it or of the recorder; it makes a tenth of its calls
few='s/20, 1000, SLOTS/20, 100, SLOTS/; s/calls=1000/calls=100/'
makes_example() {
    local of=bindings/c/recorded.c recorder=include/yachtrecord.h to=$room/example flags=("${strict[@]/-Iinclude/-I$room/example}" -O1)
    [ "$1" != Python ] || of=bindings/python/yachtrecord_example.py recorder=bindings/python/yachtrecord.py
    rm -rf "$to" && mkdir "$to" && sed "$few" "$of" > "$to/few" && sed "${2-}" "$to/few" > "$to/${of##*/}" && sed "${3-}" "$recorder" > "$to/${recorder##*/}" ||
        return 1
    [ -z "${2-}" ] || ! cmp -s "$to/few" "$to/${of##*/}" || return 1
    [ -z "${3-}" ] || ! cmp -s "$recorder" "$to/${recorder##*/}" || return 1
    plays=("$to/recorded")
    case $1 in
        C) gcc -std=c11 "${flags[@]}" "$to/recorded.c" -pthread -o "$to/recorded" ;;
        C++) g++ -std=c++17 "${flags[@]}" -x c++ "$to/recorded.c" -pthread -o "$to/recorded" ;;
        Python) plays=(python3 -B "$to/yachtrecord_example.py") ;;
    esac
}

# plays_example SEED [N]
plays_example() {
    timeout 120 "${plays[@]}" "$@" > "$room/log" 2> "$room/found"
}

# legal_example LANGUAGE [SED]: the logs of three seeds are legal
legal_example() {
    local seed
    makes_example "$@" || return 1
    for seed in 1 2 3; do
        plays_example "$seed" && judged legal || return 1
    done
}

# found_example LANGUAGE N [SED [HEADER_SED]]: one of twenty logs is not legal; if one look of N is
# wrong, all calls are made
found_example() {
    local seed few=$few
    [ "$2" -eq 0 ] || few=
    makes_example "$1" "${@:3}" || return 1
    for seed in {1..20}; do
        plays_example "$seed" "$2" || return 1
        judged 'not legal' > /dev/null && return
    done
    return 1
}

# ends_example LANGUAGE WHY SED: the log ends early, and it is legal up to there
ends_example() {
    makes_example "$1" "$3" || return 1
    plays_example 1
    [ $? -eq 1 ] && grep -qF "recorder: $2; the log ends there" "$room/found" && [ "$(wc -l < "$room/log")" -lt 12000 ] && judged legal
}

# refuses_plan LANGUAGE SED SEED MESSAGE: nothing is played, for this reason
refuses_plan() {
    makes_example "$1" "$2" || return 1
    plays_example "$3"
    [ $? -eq 2 ] && [ ! -s "$room/log" ] && [[ $(< "$room/found") = *"$4" ]]
}

recorded_in_c() {
    local take='^    int was_full = swap(slot, NULL);' drop='^    yacht_record_drop(it->value);' crashed='a call crashed, or a thread had no handle'
    want 'a log of a right table in C is not legal' legal_example C
    want 'a stale look of 10,000 in C is not noticed' found_example C 10000
    want 'a call in C that aborts leaves no log' ends_example C "$crashed" "s/$take/    if (++looks == 500) abort();\n&/"
    want 'a call in C that uses memory wrongly leaves no log' ends_example C "$crashed" "s/$take/    if (++looks == 500) *(volatile int *)8 = 1;\n&/"
    want 'calls in C that crash in all threads leave no log' ends_example C "$crashed" \
        's/^static int take.*/&\n    if (__atomic_add_fetch(\&looks, 1, __ATOMIC_SEQ_CST) > 400) *(volatile int *)8 = 1;/'
    want 'a plan in C without a slot is not refused' refuses_plan C 's/SLOTS, 20}/0, 20}/' 1 'recorder: the plan has no slot'
    want 'a seed in C that is none is not refused' refuses_plan C '' abc "recorded: 'abc' is not a number"
    want 'a call in C++ that throws leaves no log' ends_example C++ "$crashed" "s/$take/    if (++looks == 500) throw 1;\n&/"
    want 'a call in C that never returns leaves no log' ends_example C 'no call began or ended in time' \
        "s/$take/    if (++looks == 500) for (;;) poll(NULL, 0, -1);\n&/; s/SLOTS, 20}/SLOTS, 2}/"
    want 'fewer handles than threads in C leave no log' ends_example C "$crashed" 's/entered < THREADS/entered < THREADS - 1/'
    want 'a value in C that another thread drops has no line' legal_example C "s/^static void end_use/static void *other(void *it) {\n    yacht_record_drop(\
(yacht_value *)it);\n    return NULL;\n}\n\n&/; s/$drop/    pthread_t thread;\n    pthread_create(\&thread, NULL, other, it->value);\n    pthread_join(thread, NULL);/"
    want 'a value in C that is dropped twice is not noticed' found_example C 0 "s/$drop/&\n&/"
    want 'a value of 100 in C that is never dropped is not noticed' found_example C 0 "s/$drop/    if (++looks % 100) yacht_record_drop(it->value);/"
    want 'a recorder in C that ends a hold too late is not noticed' found_example C 0 '' '/^        its->release(handle, found);$/d; s/^ *yacht_record_note(own, "free .*/        its->release(handle, found);\n&/'
    want 'a recorder in C that settles before all rest is not noticed' found_example C 0 '' 's/(own, 2 \* round + 1, 0)/(own, 2 * round + 1, 1)/'
}

recorded_in_python() {
    local take='^            return self.swap(slot, None)' again='            self.looks += 1\n'
    want 'a log of a right table in Python is not legal' legal_example Python
    want 'a stale look of 10,000 in Python is not noticed' found_example Python 10000
    want 'a plan in Python without a slot is not refused' refuses_plan Python 's/slots=SLOTS/slots=0/' 1 'recorder: the plan has no slot'
    want 'a seed in Python that is none is not refused' refuses_plan Python '' abc "argument SEED: invalid int value: 'abc'"
    want 'a call in Python that raises an exception leaves no log' ends_example Python "KeyError('lost')" \
        "s/$take/$again            if self.looks > 500: raise KeyError('lost')\n&/"
    want 'a call in Python that never returns leaves no log' ends_example Python "TimeoutError('no call began or returned for 2 s')" \
        "s/$take/$again            while self.looks > 500: threading.Event().wait(1)\n&/; s/slots=SLOTS/slots=SLOTS, silence=2/"
    want 'a value in Python that another thread drops has no line' legal_example Python 's/^            self.before = \[None\] \* SLOTS/            it = threading.Thread(\
target=self.__dict__.update, args=({"before": [None] * SLOTS},))\n            it.start()\n            it.join()/'
    want 'a value in Python that is closed in use is not noticed' found_example Python 0 's/^            self.before\[slot\] = old/&\n            old.close()/'
    want 'a recorder in Python that settles before all rest is not noticed' found_example Python 0 '' \
        's/rests, settles = threading.Barrier(threads), /rests, settles = threading.Barrier(threads, lambda: lines.append("settled")), /'
    want 'a recorder in Python with a close of what was never put is not noticed' found_example Python 0 '' '/^        value.is_open = value.is_open and at/d'
}
