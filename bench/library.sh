#!/bin/bash
# library.sh [PRESET [PROGRAM]]
# Prints the table of docs/PERFORMANCE.md on a datagram by the library: instructions and nanoseconds of `Handler`, of the calls from C and
# from Python, and of the plain handler, with lines and with books alone. Needs PROGRAM, the proved build of crates/handler_times, `make
# library`, cargo, a C compiler and python3, and valgrind for instructions. Exit status 1 where they don't count the same books and bytes.
#   RUNS=5          how many timed runs of each, by turns; of nanoseconds it prints those of the least processor time
#   SEED=1          the seed of the preset
# What reading the capture takes is taken off: each program says `nothing`, and of the plain handler a run that is refused after reading.
# Instructions are of the first 40,000 lines.
set -u
preset=${1:-day}
here=$(cd "$(dirname "$0")" && pwd)
runs=${RUNS:-5} seed=${SEED:-1}
direct=${2:-$here/../crates/handler_times/out/handler_times} library=$here/../build
[ -x "$direct" ] || { echo "library.sh: no program $direct; 'rt run' in its crate builds it" >&2; exit 2; }
[ -e "$library/libmdp_handler.a" ] || { echo "library.sh: no $library/libmdp_handler.a; 'make library' builds it" >&2; exit 2; }
(cd "$here" && cargo build --quiet --release --offline) || exit 2
built=${CARGO_TARGET_DIR:-$here/target}/release
tmp=$(mktemp -d)
trap 'rm -rf "$tmp"' EXIT
cc -O2 -I"$library" "$here/library_times.c" "$library/libmdp_handler.a" "$library/liblibc_c.a" -o "$tmp/from_c" || exit 2
"$built/generate" "$preset" --seed "$seed" > "$tmp/whole" || exit 2
head -n 40000 "$tmp/whole" > "$tmp/piece"
for name in whole piece; do { cat "$tmp/$name"; echo "I 2147483647 LATE O"; } > "$tmp/$name.late"; done

# They count the same.
"$direct" lines < "$tmp/piece" > "$tmp/wanted"
for words in "$tmp/from_c" "$here/library_times.py"; do
    "$words" lines < "$tmp/piece" | cmp -s - "$tmp/wanted" || { echo "library.sh: $words counts otherwise" >&2; exit 1; }
done

instructions() {
    local input=$1
    shift
    valgrind --tool=callgrind --callgrind-out-file="$tmp/callgrind" "$@" < "$input" 2>&1 > "$tmp/out" | awk '/Collected/ { print $4 }'
}
# Prints a row: its name, and what a run with lines and one with books alone take more than one that only reads, of one datagram.
row() {
    awk -v name="$1" -v count="$2" -v scale="$3" -v lines="$4" -v books="$5" -v nothing="$6" 'BEGIN {
        printf "| %s | %.0f | %.0f |\n", name, (lines - nothing) * scale / count, (books - nothing) * scale / count
    }'
}

echo "\`$preset\`, seed $seed, $runs runs by turns; $(nproc) processors, load $(cut -d' ' -f1-3 /proc/loadavg)"
echo
echo "| A datagram | With lines | Books alone |"
echo "|---|---|---|"
if command -v valgrind > "$tmp/out"; then
    count=$(grep -c '^[ABS] ' "$tmp/piece")
    for which in "\`Handler\`, instructions:$direct" "from C, instructions:$tmp/from_c"; do
        at=${which#*:}
        row "${which%%:*}" "$count" 1 "$(instructions "$tmp/piece" "$at" lines)" "$(instructions "$tmp/piece" "$at" books)" \
            "$(instructions "$tmp/piece" "$at" nothing)"
    done
    row "plain handler, instructions" "$count" 1 "$(instructions "$tmp/piece" "$built/plain_handler" --in-order)" \
        "$(instructions "$tmp/piece" "$built/plain_handler" --books)" "$(instructions "$tmp/piece.late" "$built/plain_handler" --in-order)"
fi
count=$(grep -c '^[ABS] ' "$tmp/whole")
# `Handler` and the library by turns, ten handlers a run, so that reading takes a small part of the seconds.
words=()
for at in "$direct" "$tmp/from_c"; do words+=(-- "$at" lines 10 -- "$at" books 10 -- "$at" nothing); done
"$built/by_turns" "$runs" "$tmp/whole" "${words[@]}" > "$tmp/seconds" || exit 2
# shellcheck disable=SC2046
row "\`Handler\`, nanoseconds" "$count" 1e8 $(head -n 3 "$tmp/seconds" | cut -d' ' -f3)
# shellcheck disable=SC2046
row "from C, nanoseconds" "$count" 1e8 $(tail -n 3 "$tmp/seconds" | cut -d' ' -f3)
at=$here/library_times.py
"$built/by_turns" "$runs" "$tmp/whole" -- "$at" lines -- "$at" books -- "$at" nothing > "$tmp/seconds" || exit 2
# shellcheck disable=SC2046
row "from Python, nanoseconds" "$count" 1e9 $(cut -d' ' -f3 "$tmp/seconds")
"$built/by_turns" "$runs" "$tmp/whole" -- "$built/plain_handler" --in-order -- "$built/plain_handler" --books > "$tmp/seconds" || exit 2
"$built/by_turns" "$runs" "$tmp/whole.late" -- "$built/plain_handler" --in-order >> "$tmp/seconds" || exit 2
# shellcheck disable=SC2046
row "plain handler, nanoseconds" "$count" 1e9 $(cut -d' ' -f3 "$tmp/seconds")
