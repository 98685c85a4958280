#!/bin/bash
# compare.sh PRESET [PROGRAM]
# Runs PROGRAM (mdp_handler, as `make run` built it) and the plain handler by turns on a preset, and prints one table:
# instructions, seconds, peak memory, and whether both print the same bytes, of a capture and of a pcap file. Exit
# status 1 where they don't. A program without --channel has no figures of the pcap file.
#   RUNS=5          how many timed runs of each
#   SEED=1          the seed of the preset
# Reading is a run over the same capture with an instrument's line behind its end, which is refused once all of it was
# read; handling is the rest of a whole run. Instructions are of the capture's first lines, and need valgrind.
set -u
preset=${1:?usage: compare.sh PRESET [PROGRAM]}
here=$(cd "$(dirname "$0")" && pwd)
program=${2:-$here/../crates/mdp_handler/out/mdp_handler}
runs=${RUNS:-5} seed=${SEED:-1}
case $preset in
    small | day | deep) lines=40000 ;;
    lossy) lines=30000 ;;
    wide) lines=20000 ;;
    *) echo "compare.sh: it takes the presets small, day, wide, lossy and deep" >&2; exit 2 ;;
esac
[ -x "$program" ] || { echo "compare.sh: no program $program; 'make run' builds it" >&2; exit 2; }
echo "building the bench" >&2
(cd "$here" && cargo build --quiet --release --offline) || exit 2
built=${CARGO_TARGET_DIR:-$here/target}/release
plain=$built/plain_handler
tmp=$(mktemp -d)
trap 'rm -rf "$tmp"' EXIT

# Puts an instrument's line behind a capture's end.
with_late_line() { cat "$1" && echo "I 2147483647 LATE O"; }

"$built/generate" "$preset" --seed "$seed" > "$tmp/whole" || exit 2
"$built/generate" "$preset" --seed "$seed" --form pcap --channel "$tmp/channel" > "$tmp/pcap" || exit 2
with_late_line "$tmp/whole" > "$tmp/whole.late"
head -n "$lines" "$tmp/whole" > "$tmp/piece"
count=$(grep -c '^[ABS] ' "$tmp/piece")
"$built/generate" "$preset" --seed "$seed" --form pcap --channel "$tmp/channel" --datagrams "$count" > "$tmp/piece.pcap" || exit 2
with_late_line "$tmp/piece" > "$tmp/piece.late"

# The bytes: of the whole capture, and of the pcap file where the program reads one.
"$program" --in-order < "$tmp/whole" > "$tmp/text.program" 2> "$tmp/told"
"$plain" --in-order < "$tmp/whole" > "$tmp/text.plain" 2> "$tmp/told"
"$plain" --channel "$tmp/channel" < "$tmp/pcap" > "$tmp/text.plain.pcap" 2> "$tmp/told"
same=yes same_pcap="yes, of plain_handler" reads_pcap=no
cmp -s "$tmp/text.program" "$tmp/text.plain" || same=NO
cmp -s "$tmp/text.plain" "$tmp/text.plain.pcap" || same_pcap=NO
if "$program" --help 2> "$tmp/told" | grep -q -e --channel; then
    reads_pcap=yes
    "$program" --channel "$tmp/channel" < "$tmp/pcap" > "$tmp/text.program.pcap" 2> "$tmp/told"
    [ "$same_pcap" = NO ] || same_pcap=yes
    cmp -s "$tmp/text.program.pcap" "$tmp/text.plain.pcap" || same_pcap=NO
fi
bytes=$(stat -c %s "$tmp/text.program")
rm -f "$tmp"/text.*

# The instructions of a command over a file, in millions.
instructions() {
    local input=$1
    shift
    valgrind --tool=callgrind --callgrind-out-file="$tmp/callgrind" "$@" < "$input" 2>&1 > "$tmp/out" |
        awk '/Collected/ { printf "%.1f", $4 / 1e6 }'
}
# Gives a row of the table: what it says, both figures, and their ratio. The first figure may be missing.
row() {
    awk -v name="$1" -v one="$2" -v other="$3" -v digits="$4" 'BEGIN {
        first = one == "" ? "" : sprintf("%.*f", digits, one)
        ratio = one == "" || other <= 0 ? "" : sprintf("%.2f", one / other)
        printf "| %s | %s | %.*f | %s |\n", name, first, digits, other, ratio
    }'
}
# The n-th figure of a command's line of by_turns.
figure() { sed -n "$2p" "$tmp/$1" | cut -d' ' -f"$3"; }
megabytes() { figure "$1" "$2" 5 | awk 'NF { print $1 / 1024 }'; }
minus() { awk -v a="$1" -v b="$2" 'BEGIN { print a - b }'; }

commit=$(git -C "$here" rev-parse --short HEAD 2> "$tmp/told" || echo unknown)
datagrams=$(grep -c '^[ABS] ' "$tmp/whole")
echo "\`$preset\`, seed $seed: $datagrams datagrams, $bytes bytes of text."
echo "Commit $commit, $(date -u +%Y-%m-%d), $(nproc) processors, load $(cut -d' ' -f1-3 /proc/loadavg)."
echo
echo "| | mdp_handler | plain_handler | Ratio |"
echo "|---|---|---|---|"
if command -v valgrind > "$tmp/told"; then
    reading_1=$(instructions "$tmp/piece.late" "$program" --in-order)
    reading_2=$(instructions "$tmp/piece.late" "$plain" --in-order)
    whole_1=$(instructions "$tmp/piece" "$program" --in-order)
    whole_2=$(instructions "$tmp/piece" "$plain" --in-order)
    books_2=$(instructions "$tmp/piece" "$plain" --books)
    row "Millions of instructions, reading" "$reading_1" "$reading_2" 1
    row "handling" "$(minus "$whole_1" "$reading_1")" "$(minus "$whole_2" "$reading_2")" 1
    row "whole" "$whole_1" "$whole_2" 1
    pcap_1="" pcap_2=$(instructions "$tmp/piece.pcap" "$plain" --channel "$tmp/channel")
    [ $reads_pcap = no ] || pcap_1=$(instructions "$tmp/piece.pcap" "$program" --channel "$tmp/channel")
    row "whole, as a pcap file" "$pcap_1" "$pcap_2" 1
    echo "| handling, books alone | | $(minus "$books_2" "$reading_2") | |"
else
    echo "compare.sh: no valgrind here, so no instructions" >&2
fi
"$built/by_turns" "$runs" "$tmp/whole" -- "$program" --in-order -- "$plain" --in-order > "$tmp/seconds" || exit 2
"$built/by_turns" "$runs" "$tmp/whole.late" -- "$program" --in-order -- "$plain" --in-order > "$tmp/seconds.late" || exit 2
# The plain handler comes first here: the program's line may be missing.
pcap_words=("$plain" --channel "$tmp/channel")
[ $reads_pcap = no ] || pcap_words+=(-- "$program" --channel "$tmp/channel")
"$built/by_turns" "$runs" "$tmp/pcap" -- "${pcap_words[@]}" > "$tmp/seconds.pcap" || exit 2
for which in "least 3" "median 4"; do
    name=${which% *} column=${which#* }
    reading_1=$(figure seconds.late 1 "$column") reading_2=$(figure seconds.late 2 "$column")
    whole_1=$(figure seconds 1 "$column") whole_2=$(figure seconds 2 "$column")
    row "Processor seconds, $name of $runs, reading" "$reading_1" "$reading_2" 3
    row "handling" "$(minus "$whole_1" "$reading_1")" "$(minus "$whole_2" "$reading_2")" 3
    row "whole" "$whole_1" "$whole_2" 3
    row "whole, as a pcap file" "$(figure seconds.pcap 2 "$column")" "$(figure seconds.pcap 1 "$column")" 3
done
row "Seconds of the clock, least of $runs" "$(figure seconds 1 1)" "$(figure seconds 2 1)" 3
row "median" "$(figure seconds 1 2)" "$(figure seconds 2 2)" 3
row "Peak memory, MB" "$(megabytes seconds 1)" "$(megabytes seconds 2)" 1
row "as a pcap file" "$(megabytes seconds.pcap 2)" "$(megabytes seconds.pcap 1)" 1
echo "| Same bytes, capture | $same | | |"
echo "| Same bytes, pcap file | $same_pcap | | |"
[ "$same" = yes ] && [ "$same_pcap" != NO ]
