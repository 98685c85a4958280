#!/usr/bin/env bash
# Runs the rows of tests/rows against a built program: run_rows.sh PROGRAM
#
# Each row is run with `--live` too: its text is the same, and standard error has the row's `stderr.live` where there is one. A row with a
# file `merges` has one text for every merge of its feeds: it is run over threads too, with 1, 2 and 16 workers.
# Prints each run that fails with how it differs, then one line 'N passed, M failed'. The exit status is 1 if any failed.
set -u

if [ $# -ne 1 ] || [ ! -x "$1" ]; then
    echo "usage: $0 PROGRAM" >&2
    exit 2
fi
program=$(realpath "$1")
rows=$(dirname "$(realpath "$0")")/rows
scratch=$(mktemp -d)
trap 'rm -rf "$scratch"' EXIT

# Whether the file $1 is one of the texts that the row $2 allows on standard output.
is_wanted_text() {
    local text
    for text in "$2"/stdout "$2"/stdout.*; do
        [ -e "$text" ] && cmp -s "$1" "$text" && return 0
    done
    return 1
}

# Prints how the text $1 differs from the wanted file $2, in a few lines.
show_difference() {
    diff -u --label wanted --label found "$2" "$1" | head -n 20
}

# Runs the row $1 with the words behind it, and prints what differs; nothing where all is as wanted.
run_row() {
    local row=$1 status wanted text told
    shift
    told=$row/stderr
    [ "${*: -1}" != --live ] || [ ! -e "$row/stderr.live" ] || told=$row/stderr.live
    timeout 60 "$program" "$@" <"$row/capture" >"$scratch/out" 2>"$scratch/err"
    status=$?
    wanted=$(cat "$row/status")
    [ "$status" = "$wanted" ] || echo "status $status, wanted $wanted"
    if ! is_wanted_text "$scratch/out" "$row"; then
        echo "standard output:"
        text=$row/stdout
        [ -e "$text" ] || text=$row/stdout.1
        show_difference "$scratch/out" "$text"
    fi
    if [ -e "$row/stderr.any" ]; then
        [ -s "$scratch/err" ] || echo "standard error is empty"
    elif ! cmp -s "$scratch/err" "$told"; then
        echo "standard error:"
        show_difference "$scratch/err" "$told"
    fi
}

# Judges the row $1 with the words behind it.
judge() {
    local row=$1 difference
    difference=$(run_row "$@")
    if [ -z "$difference" ]; then
        passed=$((passed + 1))
    else
        failed=$((failed + 1))
        shift
        echo "FAILED $(basename "$row") with '$*': $(cat "$row/note")"
        printf '%s\n' "$difference"
    fi
}

# Judges the row $1 over threads, with the words behind it but for --in-order, and 1, 2 and 16 workers.
judge_over_threads() {
    local row=$1 word workers
    local words=()
    shift
    for word in "$@"; do
        [ "$word" = --in-order ] || words+=("$word")
    done
    for workers in 1 2 16; do
        judge "$row" ${words[@]+"${words[@]}"} --workers "$workers"
    done
}

passed=0
failed=0
for row in "$rows"/*/; do
    row=${row%/}
    words=()
    [ ! -e "$row/args" ] || mapfile -t words <"$row/args"
    judge "$row" ${words[@]+"${words[@]}"}
    judge "$row" ${words[@]+"${words[@]}"} --live
    [ ! -e "$row/merges" ] || judge_over_threads "$row" ${words[@]+"${words[@]}"}
done
if [ "$passed" -eq 0 ] && [ "$failed" -eq 0 ]; then
    echo "FAILED: no row was run"
    failed=1
fi
echo "$passed passed, $failed failed"
[ "$failed" -eq 0 ]
