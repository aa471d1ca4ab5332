#!/bin/sh
# Runs a built program of tests or of rows with each growth refused in turn, which the gate doesn't: each test then finds the right
# answer or want of memory, and of each row the program prints the right answer or `Memory`, or nothing and ends with a fault. Wants cc.
# usage: tools/rows/try_memory.sh CRATE [WORD]    runs the tests whose names hold the word, by default `memory`, or the rows that hold it, by
# default all; the crate is built first by `rt test` or `rt run` where it isn't.
set -u
root=$(CDPATH= cd -- "$(dirname -- "$0")/../.." && pwd -P)
crate=$1
folder="$root/crates/$crate"
room=$(mktemp -d) || exit 1
trap 'rm -rf -- "$room"' EXIT
cc -O2 -shared -fPIC -o "$room/refuse.so" "$root/tools/rows/refuse_memory.c" -ldl || exit 1
find_built() { built=$(ls -- "$folder/out/${crate}_tests" "$folder/out/$crate" 2>/dev/null | head -1); }
find_built
if [ -z "$built" ] && [ -f "$folder/stdin" ]; then
    (cd "$folder" && rt run <stdin >"$room/said") || exit 1
    find_built
elif [ -z "$built" ]; then
    (cd "$folder" && rt test) || exit 1
    find_built
fi
# What a test does with each growth refused in turn.
try_test() {
    turn=0
    wrong=0
    while :; do
        turn=$((turn + 1))
        REFUSE_MEMORY=$turn LD_PRELOAD="$room/refuse.so" "$built" "$1" >"$room/said" 2>"$room/faults"
        status=$?
        if ! grep -qx "growth refused" "$room/faults"; then
            break
        fi
        # A test that hands want of memory on says so and nothing else; the names of tests and files may hold the word too.
        if [ "$status" -ne 0 ] && ! grep -Eqx 'error: (AllocError|AllocFailed \{ \.\. \}|Memory)' "$room/faults"; then
            echo "growth $turn: status $status"
            tail -n 3 "$room/said" "$room/faults"
            wrong=$((wrong + 1))
        fi
    done
    echo "$1: $((turn - 1)) growths refused, $wrong wrong"
    failed=$((failed + wrong))
}

# What the program prints of a row with each growth refused in turn.
try_row() {
    turn=0
    wrong=0
    while :; do
        turn=$((turn + 1))
        REFUSE_MEMORY=$turn LD_PRELOAD="$room/refuse.so" "$built" <"$room/row" >"$room/said" 2>"$room/faults"
        status=$?
        if ! grep -qx "growth refused" "$room/faults"; then
            break
        fi
        # A row of messages also says what came back.
        case $(cat "$room/said") in
        "$what | Memory"*) is_told=yes ;;
        *) is_told=no ;;
        esac
        if [ "$status" -eq 0 ] && { [ $is_told = yes ] || cmp -s "$room/said" "$room/wanted"; }; then
            continue
        fi
        if [ "$status" -eq 0 ] || [ -s "$room/said" ]; then
            echo "growth $turn: status $status"
            tail -n 3 "$room/said" "$room/faults"
            wrong=$((wrong + 1))
        fi
    done
    grown=$((grown + turn - 1))
    failed=$((failed + wrong))
}

try_rows() {
    grown=0
    number=0
    while IFS= read -r row; do
        number=$((number + 1))
        case $row in
        *"$1"*) ;;
        *) continue ;;
        esac
        printf '%s\n' "$row" >"$room/row"
        what=${row%% | *}
        sed -n "${number}p" "$folder/stdout" >"$room/wanted"
        try_row
        tried=$((tried + 1))
    done <"$folder/stdin"
    echo "$crate: $tried rows, $grown growths refused, $failed wrong"
    [ "$tried" -gt 0 ] && [ "$failed" -eq 0 ]
}

failed=0
tried=0
if [ -f "$folder/stdin" ]; then
    try_rows "${2:-}"
    exit
fi
for name in $("$built" --list | sed 's/: test$//' | grep -- "${2:-memory}"); do
    try_test "$name"
    tried=$((tried + 1))
done
if [ "$tried" -eq 0 ]; then
    echo "no test of $crate has this word in its name" >&2
    exit 1
fi
[ "$failed" -eq 0 ]
