#!/bin/bash
# tables.sh [PROGRAM]
# Prints the tables of docs/PERFORMANCE.md, of instructions, of seconds and memory, and of `--live`, for PROGRAM (mdp_handler, as `make run`
# built it) and in brackets for the plain handler, on some presets. What the rows are compare.sh says, which also compares the bytes.
#   PRESETS="day wide lossy deep"
#   RUNS=5          how many timed runs of each, by turns
#   SEED=1          the seed of the presets
set -u
here=$(cd "$(dirname "$0")" && pwd)
program=${1:-$here/../crates/mdp_handler/out/mdp_handler}
runs=${RUNS:-5} seed=${SEED:-1}
[ -x "$program" ] || { echo "tables.sh: no program $program; 'make run' builds it" >&2; exit 2; }
(cd "$here" && cargo build --quiet --release --offline) || exit 2
built=${CARGO_TARGET_DIR:-$here/target}/release
plain=$built/plain_handler
tmp=$(mktemp -d)
trap 'rm -rf "$tmp"' EXIT

# The instructions of a command over a file, in millions.
instructions() {
    local input=$1
    shift
    valgrind --tool=callgrind --callgrind-out-file="$tmp/callgrind" "$@" < "$input" 2>&1 > "$tmp/out" |
        awk '/Collected/ { printf "%.1f", $4 / 1e6 }'
}
# The n-th figure of a command's line of by_turns: 1 and 2 seconds of the clock, 3 and 4 of the processor (least, median), 5 kB.
figure() { sed -n "$2p" "$tmp/$1" | cut -d' ' -f"$3"; }

for preset in ${PRESETS:-day wide lossy deep}; do
    case $preset in
        lossy) lines=30000 ;;
        wide) lines=20000 ;;
        *) lines=40000 ;;
    esac
    "$built/generate" "$preset" --seed "$seed" > "$tmp/whole" || exit 2
    late="I 2147483647 LATE O"
    { cat "$tmp/whole"; echo "$late"; } > "$tmp/whole.late"
    head -n "$lines" "$tmp/whole" > "$tmp/piece"
    { cat "$tmp/piece"; echo "$late"; } > "$tmp/piece.late"
    datagrams=$(grep -c '^[ABS] ' "$tmp/whole")
    text=$("$program" --in-order < "$tmp/whole" | wc -c)
    if command -v valgrind > "$tmp/out"; then
        awk -v name="\`$preset\`" -v r1="$(instructions "$tmp/piece.late" "$program" --in-order)" \
            -v r2="$(instructions "$tmp/piece.late" "$plain" --in-order)" -v w1="$(instructions "$tmp/piece" "$program" --in-order)" \
            -v w2="$(instructions "$tmp/piece" "$plain" --in-order)" 'BEGIN {
                printf "| %s | %.0f (%.0f) | %.0f (%.0f) | %.0f (%.0f) | %.2f | %.2f |\n", name, r1, r2, w1 - r1, w2 - r2, w1, w2,
                    (w1 - r1) / (w2 - r2), w1 / w2
            }' >> "$tmp/instructions"
        live=$(instructions "$tmp/piece" "$program" --live) plain_live=$(instructions "$tmp/piece" "$plain" --live)
        whole=$(instructions "$tmp/piece" "$program" --in-order)
    fi
    "$built/by_turns" "$runs" "$tmp/whole" -- "$program" --in-order -- "$plain" --in-order \
        -- "$program" --workers 2 --window 65536 -- "$program" --workers 4 --window 65536 \
        -- "$program" --live -- "$plain" --live > "$tmp/seconds" || exit 2
    "$built/by_turns" "$runs" "$tmp/whole.late" -- "$program" --in-order -- "$plain" --in-order > "$tmp/reading" || exit 2
    awk -v name="\`$preset\`" -v datagrams="$datagrams" -v text="$text" -v r1="$(figure reading 1 3)" -v r2="$(figure reading 2 3)" \
        -v w1="$(figure seconds 1 3)" -v w2="$(figure seconds 2 3)" -v c1="$(figure seconds 1 2)" -v c2="$(figure seconds 3 2)" \
        -v c4="$(figure seconds 4 2)" -v m1="$(figure seconds 1 5)" -v mp="$(figure seconds 2 5)" -v m2="$(figure seconds 3 5)" \
        -v m4="$(figure seconds 4 5)" 'BEGIN {
            printf "| %s | %d | %.0f | %.3f (%.3f) | %.3f (%.3f) | %.3f (%.3f) | %.2f, %.2f, %.2f | %.0f (%.0f), %.0f, %.0f |\n", name,
                datagrams, text / 1e6, r1, r2, w1 - r1, w2 - r2, w1, w2, c1, c2, c4, m1 / 1024, mp / 1024, m2 / 1024, m4 / 1024
        }' >> "$tmp/rows"
    awk -v name="\`$preset\`" -v live="${live:-0}" -v plain="${plain_live:-0}" -v whole="${whole:-0}" -v s1="$(figure seconds 5 3)" \
        -v s2="$(figure seconds 6 3)" -v m1="$(figure seconds 5 5)" -v m2="$(figure seconds 6 5)" 'BEGIN {
            printf "| %s | %.0f (%.0f) | %s | %.3f (%.3f) | %.1f (%.1f) |\n", name, live, plain,
                (whole > 0 ? sprintf("%.2f", live / whole) : ""), s1, s2, m1 / 1024, m2 / 1024
        }' >> "$tmp/live"
    if [ "$preset" = day ]; then
        for which in "$program" "$plain"; do
            printf '%s: ' "$(basename "$which")"
            "$built/latency" --pace 100 "$tmp/whole" -- "$which" --live
        done > "$tmp/latency" 2>&1
    fi
done
commit=$(git -C "$here" rev-parse --short HEAD 2> "$tmp/out" || echo unknown)
echo "Commit $commit, seed $seed, $runs runs by turns; $(nproc) processors, load $(cut -d' ' -f1-3 /proc/loadavg)"
if [ -s "$tmp/instructions" ]; then
    echo
    echo "| Preset | Reading | Handling | Whole | Handling to the plain handler's | Whole to the plain handler's |"
    echo "|---|---|---|---|---|---|"
    cat "$tmp/instructions"
fi
echo
echo "| Preset | Datagrams | Text, MB | Reading | Handling | Whole | Clock: 1 thread, 2 workers, 4 workers | Memory: 1 thread, 2 workers, 4 workers |"
echo "|---|---|---|---|---|---|---|---|"
cat "$tmp/rows"
echo
echo "| Preset | Instructions with --live | To --in-order's | Processor seconds | Memory, MB |"
echo "|---|---|---|---|---|"
cat "$tmp/live"
[ ! -s "$tmp/latency" ] || { echo; cat "$tmp/latency"; }
