# The functions of tests/check-bindings that test the Python module: by rows, without its library,
# and with wrong changes.

module=bindings/python

python() {
    PYTHONDONTWRITEBYTECODE=1 PYTHONPATH=$module:$PWD YACHTBANYAN_LIB_DIR=${library-lib} python3 -B "$@"
}

judges_rows() {
    [ "$(python "tests/bindings/$1.py")" = "$1.py: $2 looked at, 0 wrong" ]
}

# the verdicts of the verified judge on the command line, and a missing library
proved_logs() {
    printf 'call 1 sparse 1\ndone 1.1 0\ncall 2 close 0\ndone 2.1 %s\n' -9 > "$room/right"
    printf 'call 1 sparse 1\ndone 1.1 0\ncall 2 close 0\ndone 2.1 %s\n' 0 > "$room/wrong"
    printf 'call 1 sparse 1\ndone 1.1 0\ncall 2 read 0 0 4097\n' > "$room/none"
    [ "$(python $module/yachtlog.py "$room/right")" = "$room/right: legal" ] || return 1
    [ "$(python $module/yachtlog.py "$room/right" "$room/wrong")" = "$room/right: legal
$room/wrong: not legal: line 4: done 2.1 0
    close 2 found a file at slot 0 by line 4, where no file can have been" ] || return 1
    python $module/yachtlog.py "$room/right" "$room/wrong" > /dev/null
    [ $? -eq 1 ] || return 1
    python $module/yachtlog.py "$room/none" > "$room/found"
    [ $? -eq 3 ] && grep -qx "$room/none: not a log: line 3: a read has at most 4096 bytes, not 4097" "$room/found" || return 1
    # without the library a log is read, and not judged
    [ "$(library=$room/without python $module/yachtlog.py "$room/right" "$room/none" 2> "$room/found")" = "$room/right: a log, not judged
$room/none: not a log: line 3: a read has at most 4096 bytes, not 4097" ] || return 1
    library=$room/without python $module/yachtlog.py "$room/right" > /dev/null 2>&1
    [ $? -eq 4 ] && grep -qF 'Set YACHTBANYAN_LIB_DIR to the folder that has it.' "$room/found"
}

# another_version WORDS C..: a library with these lines of C is refused
another_version() {
    printf '%s\n' 'unsigned yacht_judge_6(void) { return 0; }' 'unsigned yacht_outcomes_6(void) { return 0; }' \
        'unsigned yacht_judge_events_6(void) { return 0; }' "${@:2}" > "$room/stub.c"
    gcc -shared -fPIC -o "$room/libyachtjudge.so.6" "$room/stub.c" || return 1
    without_library "$room" "$room/libyachtjudge.so.6 has $1, and this module needs 6."
}

without_library() {
    library=$1 python -c 'import yachtjudge' > "$room/found" 2>&1 && return 1
    tail -n 1 "$room/found" | grep -qF "ImportError: The library $2" && tail -n 1 "$room/found" | grep -qF 'Set YACHTBANYAN_LIB_DIR to the folder that has it.'
}

over_the_stand_in_of_rows() {
    stand_in_of_judge && JUDGE_ROWS=$rows_of_judge library=$room/judge python tests/bindings/judge_rows.py "$@"
}

# refused_by COMMAND..: a row is wrong, or the stand-in has none with the arguments of a call
refused_by() {
    ! "$@" --first > "$room/found" 2>&1 && grep -qE '[1-9][0-9]* wrong$|: no row has these arguments' "$room/found"
}

# wrong_module MODULE SED: a wrong change of a module, which a row must refuse
wrong_module() {
    rm -rf "$room/python" && cp -r bindings/python "$room/python"
    sed -i "$2" "$room/python/$1.py"
    ! cmp -s "bindings/python/$1.py" "$room/python/$1.py" || return 1
    python3 -B -m py_compile "$room/python/$1.py" || return 1
    local module=$room/python
    refused_by over_the_stand_in_of_rows || refused_by python tests/bindings/log_rows.py || refused_by python tests/bindings/judge_rows.py
}

in_python() {
    want 'the judge from Python is wrong' judges_rows judge_rows 294
    want 'the judge from Python is wrong over the stand-in' over_the_stand_in_of_rows
    want 'the judge of logs from Python is wrong' judges_rows log_rows 86
    want 'the verified judge of yachtlog is wrong' proved_logs
    want 'a missing library is not explained' without_library "$room" "$room/libyachtjudge.so.6 was not found."
    echo > "$room/libyachtjudge.so.6"
    want 'a library that does not load is not explained' without_library "$room" "$room/libyachtjudge.so.6 can't be loaded: "
    want 'a library without a version is not refused' another_version 'no version'
    want 'a library of another version is not refused' another_version 'the version 5.9.1' 'const char *yacht_judge_version(void) { return "5.9.1"; }'
}

# takes modules with wrong changes, which the rows must refuse
wrong_modules() {
    local module change
    while IFS=' ' read -r module change; do
        want "a wrong change of $module.py is not noticed: $change" wrong_module "$module" "$change"
    done
}

wrong_python() {
    wrong_modules << 'END'
yachtjudge s/else "undecided"$/else "legal"/
yachtjudge s/word: Literal\[.*\] = "legal" if code == LEGAL/word = "legal" if code != NOT_LEGAL/
yachtjudge s/return self.word == "legal"/return self.word != "not legal"/
yachtjudge s/Outcomes(tuple(listed), code == ALL)/Outcomes(tuple(listed), True)/
yachtjudge s/    return numbers$/    return [STATES, *numbers[1:]]/
yachtjudge s/data = of.encode() if isinstance(of, str) else bytes(of)/data = (of.encode() if isinstance(of, str) else bytes(of)).split(b"\\0")[0]/
yachtjudge s/verdict.submission, words)/0, words)/
yachtjudge s/verdict.submission, words)/verdict.submission, "")/
yachtjudge s/"legal" if code == LEGAL else/"legal" if code == LEGAL or verdict.at else/
yachtjudge s/BadScript(verdict.line, words)/BadScript(verdict.line, "")/
yachtjudge s/room, count = max(found.bytes, 1), max(found.count, 1)/break/
yachtjudge s/        raise TypeError(f"{name} must/        of = bytes(of)\n    if not isinstance(of, (str, bytes, bytearray, memoryview)):\n&/
yachtjudge s/    numbers = \[operator.index(it)/    numbers = [int(it)/
yachtjudge s/        if not 0 <= number <= most:/        if number < 0:/
yachtjudge s/        most = MOVES if name == "moves" else MOST/        most = MOVES/
yachtjudge s/        if verdict.note <= room:/        if room:/
yachtjudge s/        at += length/        at += 1/
yachtjudge s/    if code == NO_MEMORY:/    if code == LONG_LOG:/
END
}

# wrong changes of how a log is passed to the verified judge, and of how its verdict is read
wrong_logs() {
    wrong_modules << 'END'
yachtjudge s/return LogVerdict("not legal", line_of(reading.line)/return LogVerdict("not legal", line_of(reading.line - 1)/
yachtjudge s/LogVerdict(_WORDS\[code\], line_of(reading.line))/LogVerdict(_WORDS[code])/
yachtjudge s/LEGAL: "legal", UNDECIDED: "undecided"/LEGAL: "legal", UNDECIDED: "legal"/
yachtjudge s/(it for it in log.events if it.word != "tag") if events is None else events/(it for it in log.events if it.word != "tag")/
yachtjudge s/if reading.steps <= room/if room/
yachtjudge s/steps\[: reading.steps\]/steps[: reading.steps - 1]/
yachtjudge s/return lines\[number - 1\] if number and lines else number/return number/
yachtjudge s/_judge_log_6(\*given, whole_updates, /_judge_log_6(*given, 0, /
yachtjudge s/bytes(note\[: reading.note\])/bytes(note[: reading.note - 1])/
yachtjudge s/read_log(text, states, memory, moves, whole_updates, lines)/read_log(text, whole_updates=whole_updates, lines=lines)/
yachtjudge s/read_log(text, states, memory, moves, whole_updates, lines)/read_log(text, states, memory, MOVES, whole_updates, lines)/
yachtjudge s/memory=memory, moves=moves)/memory=memory, moves=moves % (MOST + 1))/
yachtsteps s/lines = tuple(line_of(at) for at/lines = tuple(at for at/
yachtsteps s/"finds": (2, False, 0)/"finds": (2, False, 1)/
yachtsteps s/bool(it.is_strict)/not it.is_strict/
yachtlines s/if it.slot is None else f"at {it.slot}"/if it.kind else ""/
yachtlines s/\[\*words, it.link\]/words/
yachtlines s/names\[max(self.file_of(it.mark), 0)\]/names[0]/
yachtlines s/            numbers.append(it.line)/            numbers.append(0)/
yachtreason s/todo += reversed(step.premises)/todo += step.premises/
yachtreason s/ and (it.premises or it.rule in ("suppose", "otherwise") or self._why(it))\]/]/
yachtlog s/if verdict.reason else \[\]$/if verdict.reason else ["none"]/
yachtlog s/len(sentences) - SENTENCES, 0/len(sentences) - SENTENCES, 1/
yachtlog s/left = 0 if is_full/left = 1 if is_full/
yachtlog s/        return NO_MEMORY$/        return MISSING/
yachtlog s/limits = options.states, options.memory, /limits = options.memory, options.states, /
yachtlog s/options.memory, options.moves$/options.memory, MOVES/
END
}
