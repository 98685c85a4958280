#!/usr/bin/env bash
# Runs a built program where the system refuses it something, as a user meets it: run_refusals.sh PROGRAM
#
# Output to a full device and to a closed pipe, input from a directory, and limits on address space and on processes. Each run
# must end by itself within ten seconds with a status and a line on standard error, and print nothing but a beginning of what it
# prints else. Prints each that fails, a word for each that this machine can't make, then one line 'N passed, M failed'. The exit
# status is 1 if any failed.
set -u

if [ $# -ne 1 ] || [ ! -x "$1" ]; then
    echo "usage: $0 PROGRAM" >&2
    exit 2
fi
rows=$(dirname "$(realpath "$0")")/rows
scratch=$(mktemp -d)
trap 'rm -rf "$scratch"' EXIT
chmod 755 "$scratch"
program=$scratch/mdp_handler
cp "$(realpath "$1")" "$program"
capture=$scratch/capture
cp "$rows/three_hundred_packets/capture" "$capture"
chmod 644 "$capture"
text=$scratch/text
cp "$rows/three_hundred_packets/stdout" "$text"
# The same with feed B's datagrams again and again: the text is the same, and it takes some ten megabytes.
long=$scratch/long
{ cat "$capture"; for _ in {1..100}; do grep '^B ' "$capture"; done; } >"$long"
passed=0
failed=0

# Counts the case $1 as passed where the rest of the words, a test, holds.
judge() {
    local name=$1
    shift
    if "$@"; then
        passed=$((passed + 1))
    else
        failed=$((failed + 1))
        echo "FAILED $name: status $(cat "$scratch/status"), told: $(head -c 200 "$scratch/err")"
    fi
}

# Whether the last run ended with status 1, told the line $1, and printed a beginning of the text.
ended_with() {
    [ "$(cat "$scratch/status")" = 1 ] && [ "$(cat "$scratch/err")" = "$1" ] && is_beginning
}

# Whether the last run told that it wrote some bytes, and ended with status 1.
told_of_a_failed_write() {
    [ "$(cat "$scratch/status")" = 1 ] && grep -qxE '42 Output after [0-9]+ bytes' "$scratch/err"
}

# Whether what the last run printed is a beginning of the text.
is_beginning() {
    cmp -s -n "$(stat -c %s "$scratch/out")" "$scratch/out" "$text"
}

# Whether the last run printed the whole text, or ended for want of memory with a beginning of it.
is_whole_or_wants_memory() {
    if [ "$(cat "$scratch/status")" = 0 ]; then
        cmp -s "$scratch/out" "$text" && [ ! -s "$scratch/err" ]
    else
        ended_with "41 Memory"
    fi
}

# Runs the program with these words over the long capture, its output in a file.
run() {
    timeout 10 "$program" "$@" <"$long" >"$scratch/out" 2>"$scratch/err"
    echo $? >"$scratch/status"
}

for words in --in-order --workers=1 --workers=16; do
    if [ -w /dev/full ]; then
        timeout 10 "$program" "$words" <"$capture" >/dev/full 2>"$scratch/err"
        echo $? >"$scratch/status"
        judge "a full device, $words" told_of_a_failed_write
    else
        echo "not run: there is no /dev/full"
    fi

    : >"$scratch/status"
    { timeout 10 "$program" "$words" <"$capture" 2>"$scratch/err"; echo $? >"$scratch/status"; } | sleep 0 &
    wait
    # Where all went into the pipe before it was closed nothing failed.
    if [ "$(cat "$scratch/status")" = 0 ]; then
        judge "a closed pipe, $words" [ ! -s "$scratch/err" ]
    else
        judge "a closed pipe, $words" told_of_a_failed_write
    fi

    timeout 10 "$program" "$words" <"$scratch" >"$scratch/out" 2>"$scratch/err"
    echo $? >"$scratch/status"
    judge "input from a directory, $words" ended_with "43 Input"

    # From too little for the capture up to what suffices.
    wanted=0
    for limit in 3000 4000 6000 8000 12000 24000 48000 96000 200000 800000; do
        (ulimit -v "$limit" 2>/dev/null && run "$words")
        case $(cat "$scratch/status") in
            126 | 127) continue ;;
        esac
        judge "$limit KB of address space, $words" is_whole_or_wants_memory
        [ "$(cat "$scratch/status")" = 1 ] && wanted=1
    done
    [ "$wanted" = 1 ] || echo "not met: no limit on address space let the program start and run out of memory, $words"
done

# A user with no other process, who may have one: no thread can be started.
if [ "$(id -u)" = 0 ] && command -v setpriv >/dev/null; then
    as_other=(setpriv --reuid=61234 --regid=61234 --clear-groups)
    if "${as_other[@]}" test -x "$program" 2>/dev/null; then
        timeout 10 "${as_other[@]}" bash -c "ulimit -u 1; exec \"$program\" --workers=2" <"$capture" >"$scratch/out" 2>"$scratch/err"
        echo $? >"$scratch/status"
        judge "one process" ended_with "41 Memory"
    else
        echo "not run: another user can't run the program here"
    fi
else
    echo "not run: no other user whose processes can be limited"
fi

echo "$passed passed, $failed failed"
[ "$failed" -eq 0 ]
