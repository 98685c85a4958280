#!/usr/bin/env bash
# Proves everything from nothing and runs all tests: the merge gate, then the examples, the demonstration of the board, a pcap file where
# tshark is there, the rows, captures as they come, recordings of a channel, cut and bent datagrams, the refusals of the system, refused
# allocations and the manual's commands on the programs that the gate has built, the library with its callers (which it builds: the gate
# makes no archive), the samples of captured traffic beside the crate's, the manual page beside the help, and a look at the documents: the
# names in docs/DEFINITIONS.md, English and links, and the code that they show. Where memory has room, the library is proved beside the
# gate. The last line is 'N passed, M failed', over all of them. The exit status is 1 if any failed.
set -u

cd "$(dirname "$(realpath "$0")")/.." || exit 2
program=crates/mdp_handler/out/mdp_handler
demo=crates/board_demo/out/board_demo
scratch=$(mktemp -d)
library=
trap '[ -z "$library" ] || kill -- "-$library" 2>/dev/null; rm -rf "$scratch"' EXIT
passed=0
failed=0

# Runs the words after the first, shows what they print, and adds up their closing line, which it shows under the name
# that is the first word. An end with a fault and no such line, or with one that tells of no failure, counts as a failure.
run_part() {
    local name=$1 status line of_it=0 missed=0
    shift
    "$@" 2>&1 | tee "$scratch/text" | sed -u -E "s/^[0-9]+ passed, [0-9]+ failed\$/$name: &/"
    status=${PIPESTATUS[0]}
    line=$(grep -E '^[0-9]+ passed, [0-9]+ failed$' "$scratch/text" | tail -n 1)
    if [ -n "$line" ]; then
        read -r of_it _ missed _ <<<"$line"
    else
        missed=1
        echo "$name: no closing line"
    fi
    if [ "$status" -ne 0 ] && [ "$missed" -eq 0 ]; then
        missed=1
        echo "$name: exit status $status"
    fi
    passed=$((passed + of_it))
    failed=$((failed + missed))
}

# Runs the program on each capture of examples/ with the words of its file `.args`; it prints the text that lies beside.
run_examples() {
    local capture words passed=0 failed=0
    for capture in examples/*.capture; do
        mapfile -t words <"${capture%.capture}.args"
        if "$program" "${words[@]}" <"$capture" | diff -u "${capture%.capture}.txt" -; then
            passed=$((passed + 1))
        else
            failed=$((failed + 1))
        fi
    done
    # The recording has the events of the recovery.
    if "$program" --window 4 --channel examples/multicast.channel <examples/multicast.pcap 2>/dev/null | diff -u examples/recovery.txt -; then
        passed=$((passed + 1))
    else
        failed=$((failed + 1))
    fi
    echo "$passed passed, $failed failed"
}

# Runs the demonstration of the board over the recovery, with its window: in the end both readers see its last prices.
run_demo() {
    if "$demo" 4 <examples/recovery.capture 2>/dev/null | diff -u \
        <(printf 'reader %s at step 6: NEAR 101x9 / 103x6\n' 1 2) -; then
        echo "1 passed, 0 failed"
    else
        echo "0 passed, 1 failed"
    fi
}

# Takes the small pcap file of examples/ to capture lines, as the manual does it, and runs over them: it prints the recovery.
run_pcap() {
    if ! command -v tshark >/dev/null; then
        echo "not run: there is no tshark"
        echo "0 passed, 0 failed"
    elif { grep '^I' examples/recovery.capture
        tshark -r examples/recovery.pcap -Y 'udp && !icmp' -T fields -e udp.dstport -e udp.payload 2>/dev/null |
            awk -v a=14310 -v b=15310 -v s=14320 -f examples/to_capture.awk
    } | "$program" --in-order --window 4 | diff -u examples/recovery.txt -; then
        echo "1 passed, 0 failed"
    else
        echo "0 passed, 1 failed"
    fi
}

# Runs the bench's own tests: that its handler in plain Rust prints what the rows and examples have, whole and in pieces.
run_bench() {
    if ! command -v cargo >/dev/null; then
        echo "not run: there is no cargo"
        echo "0 passed, 0 failed"
    else
        (cd bench && CARGO_TARGET_DIR=$scratch/bench cargo test --offline 2>&1) | awk '
            /^test result:/ { passed += $4; failed += $6 }
            /^error|FAILED|panicked/ { print }
            END { if (!passed) failed++; printf "%d passed, %d failed\n", passed, failed }'
    fi
}

# Runs over recordings of a channel, beside the plain handler that the bench's tests have built.
run_recordings() {
    local plain=$scratch/bench/debug/plain_handler words=("$program")
    [ ! -x "$plain" ] || words+=("$plain")
    tests/run_channel.py "${words[@]}"
}

# Prints how many checks memory has room for, where one takes $1 GB.
checks_in_memory() {
    awk -v size="$1" '/^MemAvailable:/ { print int($2 / 1000000 / size) }' /proc/meminfo
}

# Prints how many checks may run at once: one for each processor, where there are 5 GB for each.
checks_at_once() {
    local most processors
    most=$(checks_in_memory 5) processors=$(nproc)
    echo $((most < 1 ? 1 : most < processors ? most : processors))
}

# Begins to prove the library, in a process group of its own. `rt ci` and `rt lib` take no proof from each other, so this goes on beside
# the gate; and in one checkout they wait for each other, so it is a copy that it is proved in. What is proved there is then kept here.
start_library() {
    mkdir "$scratch/library"
    tar -c --exclude=out HANDLES crates.txt crates tools bindings | tar -x -C "$scratch/library"
    setsid "$scratch/library/tools/library.sh" >"$scratch/library.text" 2>&1 &
    library=$!
}

# Waits for the library's proof. Where it failed, that is told as its callers are built.
end_library() {
    [ -z "$library" ] || wait "$library"
    library=
}

# Without RT_JOBS `rt` reckons with two to three times the memory that a large crate's check takes, and processors stand idle.
export RT_JOBS=${RT_JOBS:-$(checks_at_once)}

[ "$(checks_in_memory 4)" -le "$RT_JOBS" ] || start_library
run_part "rt ci" rt ci
run_part "the examples" run_examples
run_part "the demonstration" run_demo
run_part "the pcap file" run_pcap
run_part "the bench" run_bench
run_part "the samples of captured traffic" tests/check_pcap_samples.py
run_part "the rows" tests/run_rows.sh "$program"
run_part "captures as they come" tests/run_live.py "$program"
run_part "recordings of a channel" run_recordings
run_part "cut and bent datagrams" tests/run_cut_and_bent.sh "$program" crates/datagram_rows/out/datagram_rows
end_library
run_part "the library" tests/run_library.sh "$program"
run_part "the refusals of the system" tests/run_refusals.sh "$program"
run_part "refused allocations" tests/run_refused_allocations.sh "$program"
run_part "the manual" tests/run_manual.sh "$program"
run_part "the manual page" tests/check_man_page.sh "$program"
run_part "the definitions" tests/check_definitions.sh
run_part "the documents' English and links" tests/check_english.py
run_part "the documents' code" tests/check_snippets.sh
echo "$passed passed, $failed failed"
[ "$failed" -eq 0 ]
