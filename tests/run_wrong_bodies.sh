#!/usr/bin/env bash
# Tries the wrong bodies of tests/wrong_bodies, each of which the prover must refuse: run_wrong_bodies.sh [CRATE]
#
# They lie here and not beside the crates' other must-fail edits because the gate has no time for them. `rt must-fail` tries them on a copy of
# the repository, in which they stand in the place of those. What `make run` or `rt check` has proved is taken from crates/*/out, so it is
# quickest after one of them. RT_JOBS says how many crates' edits are tried at once; without it, one's. Prints what `rt` says of each edit, and
# of what failed, and then one line 'N passed, M failed'. The exit status is 1 if any failed.
set -u

cd "$(dirname "$(realpath "$0")")/.." || exit 2
bodies=$PWD/tests/wrong_bodies
scratch=$(mktemp -d)
trap 'rm -rf "$scratch"' EXIT

if [ $# -gt 1 ] || { [ $# -eq 1 ] && [ ! -d "$bodies/$1" ]; }; then
    echo "usage: $0 [CRATE], one of:" $(ls "$bodies") >&2
    exit 2
fi
crates=${1:-$(ls "$bodies")}
cp -a HANDLES crates.txt crates "$scratch"
rm -rf "$scratch"/crates/*/must-fail
for crate in $crates; do
    cp -r "$bodies/$crate" "$scratch/crates/$crate/must-fail"
done
(cd "$scratch" && printf '%s\n' $crates | xargs -n 1 -P "${RT_JOBS:-1}" rt must-fail 2>&1) | tee "$scratch/text" | grep --line-buffered -E "^rt: |must-fail|error"
refused=$(grep -c ": refused, as it must be" "$scratch/text")
all=$(cd "$bodies" && find $crates -name '*.edit' | wc -l)
echo "$refused passed, $((all - refused)) failed"
[ "$refused" -eq "$all" ]
