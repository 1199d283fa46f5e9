# What the checks share: where things are, a folder that is removed in the end, and how a run is judged. Sourced, not run.
top=$(cd "$(dirname "${BASH_SOURCE[0]}")/.." && pwd) || exit 1
program=$(realpath -m "${LOTTERY_PROGRAM:-$top/crates/lottery/out/lottery}")
name=$(basename "$0")
failed=0
# No run takes more seconds of a processor than this, unless the way in which it works is a wrong one. A busy machine changes nothing.
most=60

stand=$(mktemp -d) || exit 1
trap 'rm -rf "$stand"' EXIT

fail() {
    echo "$name: $*" >&2
    failed=1
}

# Ends the checks where the program isn't built.
need_program() {
    [ -x "$program" ] && return
    fail "the program isn't built: rt ci makes crates/lottery/out/lottery"
    exit 1
}

# Runs the words given, with `out` and `err` in the current folder as its standard output and standard error, and sets `status`.
try() {
    (ulimit -t "$most" && exec "$@") </dev/null >out 2>err
    status=$?
}

# ended CASE STATUS LINE: the last run ended with this status, and with this line alone on standard error, or with nothing for an empty one.
ended() {
    local said
    said=$(cat err)
    [ "$status" -lt 128 ] || fail "$1: a signal ended it, which it also does after $most seconds of a processor"
    [ "$status" -eq "$2" ] || fail "$1: status $status in place of $2"
    [ "$said" = "$3" ] || fail "$1: '$said' on standard error in place of '$3'"
}

# wrote CASE FILE: its standard output is that of the file.
wrote() {
    cmp -s out "$2" || fail "$1: standard output isn't $(basename "$2")"
}

# refuses STATUS LINE WORDS..: a run of the program with these words ends so, and writes nothing to standard output.
refuses() {
    local case=${*:3}
    try "$program" "${@:3}"
    ended "$case" "$1" "$2"
    [ ! -s out ] || fail "$case: something stands on standard output"
}

# writes FILE WORDS..: a run of the program with these words ends with 0, and writes the file's text.
writes() {
    local case=${*:2}
    try "$program" "${@:2}"
    ended "$case" 0 ''
    wrote "$case" "$1"
}

# Says that all is well, where it is, and ends.
finish() {
    [ "$failed" -eq 0 ] && echo "$name: all checks passed"
    exit "$failed"
}
