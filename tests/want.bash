# Goes to the top of the repository, makes a folder, `room`, for a check in bash, and counts its
# cases. The check ends by `scripts/run scripts.checks NAME "$looked" "$wrong" "${left[@]}"`.
cd "$(dirname "$0")/.."
room=$(mktemp -d)
trap 'rm -rf "$room"' EXIT
check=${0##*/check-} looked=0 wrong=0 left=()

# say TEXT: prints a text as a comment of the Test Anything Protocol
say() {
    echo "# $check: ${1//$'\n'/$'\n'# }"
}

# want COMPLAINT COMMAND..: the command ends with status 0
want() {
    looked=$((looked + 1))
    "${@:2}" > "$room/said" 2>&1 && return
    wrong=$((wrong + 1))
    local said
    said=$(tail -n 8 "$room/said")
    say "$1${said:+: $said}"
}

# skip NUMBER TOOL: leaves out as many cases, since a tool is missing
skip() {
    left+=("$1:$2")
    say "$1 cases are left out: there is no $2"
}
