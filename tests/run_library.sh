#!/usr/bin/env bash
# Builds the library for C with its callers, and runs them: run_library.sh [PROGRAM]
#
# The declarations of the callers are compared with the exports. The tests of the calls run in each language, those in C over several
# captures, with the sanitizers and under valgrind. Each program `text` prints the text of each row that has one text on one thread, and of
# each example, and ends with the row's status; each `example` prints the best levels that stand in the text's C lines. The one in C prints what
# the bench's handler in plain Rust prints of its presets, and, where PROGRAM, mdp_handler, is given, what that prints of cut and bent
# datagrams. Prints what is otherwise, what is left out, then one line 'N passed, M failed'. The exit status is 1 if any failed.
set -u

program=
[ $# -eq 0 ] || program=$(realpath "$1")
cd "$(dirname "$(realpath "$0")")/.." || exit 2
scratch=$(mktemp -d)
trap 'rm -rf "$scratch"' EXIT
passed=0
failed=0

# Rows without a skipped line, for the tests of the calls: the window, the capture and its text.
calls_over=(
    "4 examples/recovery.capture examples/recovery.txt"
    "1024 examples/spread.capture examples/spread.txt"
    "4 tests/rows/recovery_unequal_snapshots/capture tests/rows/recovery_unequal_snapshots/stdout"
    "4 tests/rows/close/capture tests/rows/close/stdout"
    "4 tests/rows/most_instruments/capture tests/rows/most_instruments/stdout"
    "1024 tests/rows/three_hundred_packets/capture tests/rows/three_hundred_packets/stdout"
)

# Captures in which each event is one datagram, and its text.
best_over=(
    "examples/plain.capture examples/plain.txt"
    "examples/spread.capture examples/spread.txt"
    "tests/rows/impossible_feed/capture tests/rows/impossible_feed/stdout"
    "tests/rows/three_hundred_packets/capture tests/rows/three_hundred_packets/stdout"
)

has() {
    command -v "$1" >/dev/null
}

# Counts a case as passed where $2, what was wrong about it, is empty.
judge() {
    if [ -z "$2" ]; then
        passed=$((passed + 1))
    else
        failed=$((failed + 1))
        echo "FAILED $1"
        head -n 10 <<<"$2"
    fi
}

# Runs the words after the first, which print a closing line 'N passed, M failed', and adds it up; shows the rest.
add_up() {
    local name=$1 status line of_it=0 missed=0
    shift
    timeout 600 "$@" >"$scratch/told" 2>&1
    status=$?
    line=$(grep -E '^[0-9]+ passed, [0-9]+ failed$' "$scratch/told" | tail -n 1)
    grep -vE '^[0-9]+ passed, [0-9]+ failed$' "$scratch/told"
    read -r of_it _ missed _ <<<"${line:-0 passed, 0 failed}"
    if [ "$of_it" -eq 0 ] || { [ "$status" -ne 0 ] && [ "$missed" -eq 0 ]; }; then
        missed=$((missed + 1))
    fi
    [ "$missed" -eq 0 ] || echo "FAILED $name: status $status, ${line:-no closing line}"
    passed=$((passed + of_it))
    failed=$((failed + missed))
}

# The words of the file $1 that a caller takes too.
words_of() {
    [ ! -e "$1" ] || sed -e '/^--in-order$/d' -e '/^--workers$/,+1d' "$1"
}

# What is wrong about the run of the words behind $3 over the capture $1, whose text is in $2 and whose status is $3.
fault_of_text() {
    local capture=$1 text=$2 wanted=$3 status
    shift 3
    timeout 60 "$@" <"$capture" >"$scratch/out" 2>"$scratch/err"
    status=$?
    [ "$status" = "$wanted" ] || { echo "status $status, wanted $wanted"; head -n 5 "$scratch/err"; }
    cmp -s "$scratch/out" "$text" || diff -u --label wanted --label found "$text" "$scratch/out"
}

# Runs the program of the words behind $1, a `text`, over the rows and the examples.
run_texts() {
    local name=$1 row capture words
    shift
    for row in tests/rows/*/; do
        row=${row%/}
        if [ -e "$row/merges" ] || grep -qx -- --in-order "$row/args"; then
            mapfile -t words < <(words_of "$row/args")
            judge "$name: $row" "$(fault_of_text "$row/capture" "$row/stdout" "$(cat "$row/status")" "$@" ${words[@]+"${words[@]}"})"
        fi
    done
    for capture in examples/*.capture; do
        mapfile -t words < <(words_of "${capture%.capture}.args")
        judge "$name: $capture" "$(fault_of_text "$capture" "${capture%.capture}.txt" 0 "$@" ${words[@]+"${words[@]}"})"
    done
}

# What an `example` prints of a capture with this text: of each book the slot and the first levels of its C line.
best_of() {
    awk '
        FILENAME == ARGV[1] { if ($1 == "I") slot[$3] = count++ + 0; next }
        $1 == "F" { print slot[$3], "- - faulty" }
        $1 == "C" {
            bid = $5 == "O" ? "-" : $5
            for (place = 5; $place != "O"; place++) {}
            print slot[$3], bid, place < NF ? $(place + 1) : "-"
        }' "$1" "$2"
}

# Runs the program of the words behind $1, an `example`.
run_examples() {
    local name=$1 pair capture text
    shift
    for pair in "${best_over[@]}"; do
        read -r capture text <<<"$pair"
        best_of "$capture" "$text" >"$scratch/best"
        judge "$name: $capture" "$(fault_of_text "$capture" "$scratch/best" 0 "$@")"
    done
}

# Builds a caller by the words behind $1, and counts it.
build() {
    local name=$1
    shift
    judge "$name" "$("$@" 2>&1 || echo "status $?")"
}

archives="build/libmdp_handler.a build/liblibc_c.a"
warnings="-Wall -Wextra -Wpedantic -Werror"
sanitizers="-g -fsanitize=address,undefined -fno-sanitize-recover=undefined"
wrapped="-pthread -Wl,--wrap=malloc,--wrap=realloc,--wrap=free"

# The words stand for several each.
# shellcheck disable=SC2086
run_c() {
    local compiler=$1 words name
    if ! has "$compiler"; then
        echo "not run: the callers in C by $compiler: there is no $compiler"
        return
    fi
    for name in text example; do
        build "$name.c by $compiler" "$compiler" -std=c11 $warnings $sanitizers -Ibuild bindings/c/$name.c $archives \
            -o "$scratch/$name-$compiler"
    done
    build "calls.c by $compiler" "$compiler" -std=c11 $warnings $sanitizers -Ibuild bindings/c/calls.c $archives $wrapped \
        -o "$scratch/calls-$compiler"
    for words in "${calls_over[@]}"; do
        add_up "calls.c by $compiler: $words" "$scratch/calls-$compiler" $words
    done
    run_texts "text.c by $compiler" "$scratch/text-$compiler"
    run_examples "example.c by $compiler" "$scratch/example-$compiler"
}

# shellcheck disable=SC2086
run_valgrind() {
    local check="valgrind -q --leak-check=full --errors-for-leak-kinds=all --error-exitcode=9" words row
    if ! has valgrind || ! has cc; then
        echo "not run: the checks for leaks and races: there is no valgrind or no cc"
        return
    fi
    build "calls.c for valgrind" cc -std=c11 $warnings -g -Ibuild bindings/c/calls.c $archives $wrapped -o "$scratch/calls"
    build "text.c for valgrind" cc -std=c11 $warnings -g -Ibuild bindings/c/text.c $archives -o "$scratch/text"
    for words in "${calls_over[@]:0:2}"; do
        add_up "calls.c under valgrind: $words" $check "$scratch/calls" $words
        add_up "calls.c under helgrind: $words" valgrind -q --tool=helgrind --error-exitcode=9 "$scratch/calls" $words
    done
    for row in recovery two_legs_and_a_spread snapshot_levels malformed_beside_good; do
        row=tests/rows/$row
        mapfile -t words < <(words_of "$row/args")
        judge "text.c under valgrind: $row" \
            "$(fault_of_text "$row/capture" "$row/stdout" 0 $check "$scratch/text" ${words[@]+"${words[@]}"})"
    done
}

# Links the shared library, as pkg-config says.
# shellcheck disable=SC2046
run_shared() {
    if ! has pkg-config || ! has cc; then
        echo "not run: the shared library from C: there is no pkg-config or no cc"
        return
    fi
    build "text.c with the shared library" cc -std=c11 bindings/c/text.c -o "$scratch/text-shared" \
        $(PKG_CONFIG_PATH=build pkg-config --cflags --libs mdp_handler) -Wl,-rpath,"$PWD/build"
    judge "text.c with the shared library" "$(fault_of_text examples/plain.capture examples/plain.txt 0 "$scratch/text-shared")"
}

# What is otherwise in the file $2 than in the file $1, which must not be empty.
same_bytes() {
    [ -s "$1" ] || echo "$1 is empty"
    cmp "$1" "$2" 2>&1
}

# Installs the library under a folder, and links the one that stands there.
# shellcheck disable=SC2046
run_installed() {
    if ! has pkg-config || ! has cc; then
        echo "not run: the installed library from C: there is no pkg-config or no cc"
        return
    fi
    build "make install-library" make --silent install-library DESTDIR="$scratch/root" PREFIX=/opt/mdp
    build "text.c with the installed library" cc -std=c11 bindings/c/text.c -o "$scratch/text-installed" \
        $(PKG_CONFIG_SYSROOT_DIR=$scratch/root PKG_CONFIG_PATH=$scratch/root/opt/mdp/lib/pkgconfig \
            pkg-config --static --cflags --libs mdp_handler | sed -e 's/-lmdp_handler/-l:libmdp_handler.a/')
    judge "text.c with the installed library" "$(fault_of_text examples/plain.capture examples/plain.txt 0 "$scratch/text-installed")"
}

# Runs text.c over the bench's presets.
# shellcheck disable=SC2086
run_presets() {
    local preset built=$scratch/bench/release
    if ! has cargo || ! has cc; then
        echo "not run: the presets through C: there is no cargo or no cc"
        return
    fi
    build "the bench" bash -c "cd bench && CARGO_TARGET_DIR=$scratch/bench cargo build --offline --quiet --release"
    build "text.c for the presets" cc -O2 -std=c11 -Ibuild bindings/c/text.c $archives -o "$scratch/text-quick"
    for preset in small day wide lossy deep; do
        "$built/generate" $preset >"$scratch/preset"
        "$built/plain_handler" --in-order <"$scratch/preset" >"$scratch/wanted"
        "$scratch/text-quick" <"$scratch/preset" >"$scratch/out"
        judge "text.c over the preset $preset" "$(same_bytes "$scratch/wanted" "$scratch/out")"
    done
    rm -f "$scratch/preset" "$scratch/wanted" "$scratch/out"
}

# shellcheck disable=SC2086
run_cpp() {
    local compiler=$1
    if ! has "$compiler"; then
        echo "not run: the callers in C++ by $compiler: there is no $compiler"
        return
    fi
    for name in calls example; do
        build "$name.cc by $compiler" "$compiler" -std=c++17 $warnings $sanitizers -Ibuild -Ibindings/cpp bindings/cpp/$name.cc $archives \
            -o "$scratch/$name-$compiler"
    done
    add_up "calls.cc by $compiler" "$scratch/calls-$compiler"
    run_examples "example.cc by $compiler" "$scratch/example-$compiler"
}

# Prints the closing line of all tests of the crate, and what failed.
test_crate() {
    (cd bindings/rust && cargo test --offline 2>&1) | awk '
        /^test result:/ { passed += $4; failed += $6 }
        /^error|^warning|FAILED|panicked/ { print }
        END { printf "%d passed, %d failed\n", passed, failed }'
}

run_rust() {
    if ! has cargo; then
        echo "not run: the callers in Rust: there is no cargo"
        return
    fi
    export CARGO_TARGET_DIR=$scratch/rust
    build "the crate in Rust" bash -c 'cd bindings/rust && cargo build --offline --quiet --examples'
    test_crate >"$scratch/crate"
    add_up "the tests in Rust" cat "$scratch/crate"
    run_texts "text.rs" "$scratch/rust/debug/examples/text"
    run_examples "example.rs" "$scratch/rust/debug/examples/example"
}

run_python() {
    if ! has python3; then
        echo "not run: the callers in Python: there is no python3"
        return
    fi
    export PYTHONDONTWRITEBYTECODE=1
    add_up "calls.py" python3 bindings/python/calls.py
    run_texts "text.py" python3 bindings/python/text.py
    run_examples "example.py" python3 bindings/python/example.py
}

# Prints the capture $1 with each change of each datagram of at most 400 bytes: cut to each length, and each of its bytes set to 0 and to
# 255. Where $2 is `before` they stand before it, but for those of the header: these stand at the end, since a packet of a great number
# gives up those before it. Where $2 is `numbered` they stand behind it, without those of the header. All packets are then numbered anew,
# and each is followed by a heartbeat of its number, so that each that is not refused passes.
with_changes() {
    tr -d '\r' <"$1" | awk -v order="$2" '
        # Prints a line, with the next number in its first four bytes, if it is a packet and they are numbered.
        function put(feed, digits,    four) {
            if (order == "numbered" && feed != "S" && length(digits) >= 24) {
                number++
                four = sprintf("%02x%02x%02x00", number % 256, int(number / 256) % 256, int(number / 65536))
                print feed " " four substr(digits, 9)
                print "B " four "00000000000000000a0000000c0001000900"
            } else {
                print feed " " digits
            }
        }

        # Prints the changes of a datagram, those of the header into a list.
        function put_changes(feed, digits,    place, before, behind, bent) {
            for (place = 1; 2 * place < length(digits); place++) put(feed, substr(digits, 1, 2 * place))
            for (place = 0; 2 * place < length(digits); place++) {
                before = substr(digits, 1, 2 * place)
                behind = substr(digits, 2 * place + 3)
                for (bent = 0; bent < 2; bent++) {
                    if (place < 12) last[count++] = feed " " before (bent ? "ff" : "00") behind
                    else put(feed, before (bent ? "ff" : "00") behind)
                }
            }
        }

        /^[ABS] [0-9a-fA-F]+$/ && length($2) % 2 == 0 && length($2) <= 800 {
            if (order == "before") put_changes($1, $2)
            put($1, $2)
            if (order == "numbered") put_changes($1, $2)
            next
        }
        { print }
        END { if (order == "before") for (n = 0; n < count; n++) print last[n] }'
}

# Runs text.c with the sanitizers and the program over the rows with all changes of their datagrams.
run_cut_and_bent() {
    local row words order compiler=cc
    if [ ! -x "$program" ] || [ ! -x "$scratch/text-$compiler" ]; then
        echo "not run: cut and bent datagrams: there is no program mdp_handler or no $compiler"
        return
    fi
    for row in tests/rows/*/; do
        row=${row%/}
        [ "$(cat "$row/status")" = 0 ] || continue
        mapfile -t words < <(words_of "$row/args")
        for order in before numbered; do
            with_changes "$row/capture" "$order" >"$scratch/changed"
            "$program" --in-order ${words[@]+"${words[@]}"} <"$scratch/changed" >"$scratch/wanted" 2>/dev/null
            judge "text.c over changes of $row, $order" \
                "$(fault_of_text "$scratch/changed" "$scratch/wanted" $? "$scratch/text-$compiler" ${words[@]+"${words[@]}"})"
        done
    done
}

if ! has "${CC:-cc}"; then
    echo "not run: the library: there is no ${CC:-cc}"
    tests/check_header.py
    exit
fi
if ! tools/library.sh >"$scratch/built" 2>&1; then
    tail -n 20 "$scratch/built"
    echo "FAILED tools/library.sh"
    echo "0 passed, 1 failed"
    exit 1
fi
add_up "tests/check_header.py" tests/check_header.py
run_c cc
run_c clang
run_valgrind
run_shared
run_installed
run_presets
run_cpp c++
run_cpp clang++
run_rust
run_python
run_cut_and_bent
echo "$passed passed, $failed failed"
[ "$failed" -eq 0 ]
