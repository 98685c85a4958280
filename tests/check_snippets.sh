#!/usr/bin/env bash
# Checks the code that the documents show: each piece of it stands in a source file of a crate or of bindings/. A piece is what lies
# between empty lines, and lines `..`, of a block `rust`, `c`, `cpp` or `python` of README.md, docs/*.md or crates/*/README.md. Spaces,
# ends of lines, comments and a comma before a closing bracket don't count. Tells each piece that stands nowhere, and then
# 'N passed, M failed'. The exit status is 1 if any failed.
set -u

cd "$(dirname "$(realpath "$0")")/.." || exit 2

awk '
    # The code of a line.
    function code(line) {
        sub(/^ *\/\/.*/, "", line)
        sub(/ \/\/ .*/, "", line)
        gsub(/[ \t]/, "", line)
        return line
    }

    # The same without the commas that stand before a closing bracket.
    function plain(text) {
        gsub(/,\)/, ")", text)
        gsub(/,\]/, "]", text)
        gsub(/,}/, "}", text)
        return text
    }

    # Looks for the piece that was read last, if there is one.
    function judge(   name) {
        if (piece == "") return
        piece = plain(piece)
        found = 0
        for (name in source) if (index(source[name], piece)) found = 1
        if (found) passed++
        else {
            failed++
            printf "%s:%d: stands in no source file: %s\n", FILENAME, start, shown
        }
        piece = ""
    }

    FILENAME ~ /\.(rt|h|c|hpp|cc|rs|py)$/ { source[FILENAME] = source[FILENAME] code($0); next }

    !ready { for (name in source) source[name] = plain(source[name]); ready = 1 }

    /^```/ { judge(); inside = !inside && $0 ~ /^```(rust|c|cpp|python)$/; next }

    !inside { next }

    /^ *(\.\.)?$/ { judge(); next }

    {
        if (piece == "") { start = FNR; shown = $0 }
        piece = piece code($0)
    }

    END {
        if (passed + failed == 0) failed++
        printf "%d passed, %d failed\n", passed, failed
        exit failed > 0
    }
' $(find crates -path '*/src/*' -name '*.rt') \
    $(find bindings -name target -prune -o -type f -name '*.[chrp]*' -print) README.md docs/*.md crates/*/README.md
