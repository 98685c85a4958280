#!/usr/bin/env bash
# Builds the library for C in build/: tools/library.sh
#
# `rt lib` proves and compiles crates/mdp_c, unless its archive is newer than all sources and the kit. Then build/ has libmdp_handler.a
# with the kit's liblibc_c.a, the shared library, the header, and mdp_handler.pc for pkg-config. CC names the C compiler.
set -eu

cd "$(dirname "$(realpath "$0")")/.."
compiler=${CC:-cc}
archive=crates/mdp_c/out/libmdp_c.a

# Whether a source or the kit is newer than the archive, or there is none.
is_old() {
    [ ! -e "$archive" ] || [ "$heap" -nt "$archive" ] || [ -n "$(find crates crates.txt \( -name out -o -name must-fail \) -prune -o \
        -type f \( -name '*.rt' -o -name '*.antt' -o -name crates.txt \) -newer "$archive" -print -quit)" ]
}

for program in rt "$compiler"; do
    command -v "$program" >/dev/null || { echo "there is no $program; the library needs it" >&2; exit 1; }
done

# The kit's heap, over malloc, is beside its first page.
pages=$(rt doc) || { echo "rt doc failed" >&2; exit 1; }
heap=$(dirname "${pages%%$'\n'*}")/c/liblibc_c.a
[ -e "$heap" ] || { echo "there is no $heap in the kit" >&2; exit 1; }

if is_old; then
    (cd crates/mdp_c && rt lib) || { echo "rt lib: crates/mdp_c was not built" >&2; exit 1; }
fi

mkdir -p build
cp "$archive" build/libmdp_handler.a
cp "$heap" build/liblibc_c.a
cp bindings/c/mdp_handler.h build/mdp_handler.h

# What the shared library shows: the calls, and nothing of the kit.
echo '{ global: mdp_*; local: *; };' >build/exports
"$compiler" -shared -o build/libmdp_handler.so -Wl,-soname,libmdp_handler.so -Wl,-z,defs -Wl,--version-script=build/exports \
    -Wl,--whole-archive build/libmdp_handler.a -Wl,--no-whole-archive build/liblibc_c.a
rm build/exports

cat >build/mdp_handler.pc <<'END'
libdir=${pcfiledir}
includedir=${pcfiledir}

Name: mdp_handler
Description: The order books of one CME MDP 3.0 channel
Version: 0.1.0
Cflags: -I${includedir}
Libs: -L${libdir} -lmdp_handler
Libs.private: -llibc_c
END
