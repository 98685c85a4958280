#!/usr/bin/env bash
# Runs a built program with each of its allocations refused in turn, those of the command line too: run_refused_allocations.sh PROGRAM
#
# A run in which one was refused ends within ten seconds: with status 1, the line `41 Memory` (with `--live`, and over a recording, after
# what was told before it) and a beginning of the text; or with status 2 and no text, where the words could not be read; or well and with
# the whole text, where the kit did without it, as where it takes room for the words ahead. Prints each run that fails, a word where this
# machine can't do it, then one line 'N passed, M failed'. The exit status is 1 if any failed.
set -u

if [ $# -ne 1 ] || [ ! -x "$1" ]; then
    echo "usage: $0 PROGRAM" >&2
    exit 2
fi
here=$(dirname "$(realpath "$0")")
program=$(realpath "$1")
scratch=$(mktemp -d)
trap 'rm -rf "$scratch"' EXIT
library=$scratch/refuse_allocation.so
passed=0
failed=0

# Whether the last run ended as one must in which an allocation was refused.
has_told_it() {
    case $(cat "$scratch/status") in
        1) [ "$(tail -n "$last" "$scratch/err")" = "41 Memory" ] && cmp -s -n "$(stat -c %s "$scratch/out")" "$scratch/out" "$text" ;;
        2) [ ! -s "$scratch/out" ] ;;
        0) cmp -s "$scratch/err" "$told" && cmp -s "$scratch/out" "$text" && went_well=$((went_well + 1)) ;;
        *) false ;;
    esac
}

# Runs over the row $1 with the words after it, with each allocation refused in turn, until none is.
refuse_each() {
    local input=$here/rows/$1/capture text=$here/rows/$1/stdout told=$here/rows/$1/stderr last=+1
    shift
    if [ "${*: -1}" = --live ]; then
        last=1
        [ ! -e "${told}.live" ] || told=$told.live
    fi
    refuse_over "$@"
}

# The same over a recording, which has the events of an example.
refuse_over_a_recording() {
    local input=$here/../examples/multicast.pcap text=$here/../examples/recovery.txt told=$scratch/told last=1
    printf 'frame %s\n' '7: 51 Lost 2 6' '8: 52 Found 2 3' >"$told"
    refuse_over --window=4 --channel="$here/../examples/multicast.channel"
}

# Runs over the input with these words, with each allocation refused in turn, until none is.
refuse_over() {
    local number went_well=0
    for ((number = 1; number < 5000; number++)); do
        rm -f "$scratch/mark"
        timeout 10 env REFUSED_ALLOCATION="$number" REFUSED_MARK="$scratch/mark" LD_PRELOAD="$library" \
            "$program" "$@" <"$input" >"$scratch/out" 2>"$scratch/err"
        echo $? >"$scratch/status"
        if [ ! -e "$scratch/mark" ]; then
            break
        elif has_told_it; then
            passed=$((passed + 1))
        else
            failed=$((failed + 1))
            echo "FAILED allocation $number with '$*': status $(cat "$scratch/status"), told: $(head -c 200 "$scratch/err")"
        fi
    done
    if [ "$number" -gt 20 ] && [ "$went_well" -le 1 ] && [ "$(cat "$scratch/status")" = 0 ] && cmp -s "$scratch/out" "$text"; then
        passed=$((passed + 1))
    else
        failed=$((failed + 1))
        echo "FAILED with '$*': $number runs, $went_well did without, and the one with none refused has status $(cat "$scratch/status")"
    fi
}

if cc -shared -fPIC -O1 -o "$library" "$here/refuse_allocation.c" 2>"$scratch/err"; then
    for words in --in-order --live --workers=1 --workers=2 --workers=3; do
        refuse_each recovery_unequal_snapshots --window=4 "$words"
        refuse_each malformed_beside_good "$words"
        refuse_each two_legs_and_a_spread "$words"
        refuse_each many_heartbeats "$words"
    done
    refuse_over_a_recording
else
    echo "not run: no C compiler makes the library here"
fi
echo "$passed passed, $failed failed"
[ "$failed" -eq 0 ]
