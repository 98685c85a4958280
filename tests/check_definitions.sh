#!/usr/bin/env bash
# Checks docs/DEFINITIONS.md both ways. Each definition that it names stands where it says: in the first column of its tables each
# name in backticks must be defined in a file of definitions (crates/*/specs) that the row's third column names, or be an enum or a
# struct of a crate. And each public definition of these files is named there, in a table or below one. Tells each that isn't, and
# then 'N passed, M failed'. The exit status is 1 if any failed.
set -u

cd "$(dirname "$(realpath "$0")")/.." || exit 2
text=docs/DEFINITIONS.md

awk '
    # The name behind the last word `pub` of a definition of the outermost level or of a `module _` block.
    FILENAME ~ /\.antt$/ {
        if ($0 !~ /^ *(abbrev|unfoldable) pub / && $0 !~ /^ *pub (record|data) /) next
        base = FILENAME
        sub(/.*\//, "", base)
        sub(/\.antt$/, "", base)
        defined[base, $3] = 1
        place[$3] = FILENAME ":" FNR
        next
    }

    FILENAME ~ /\.rt$/ {
        if (match($0, /^pub(\([a-z]+\))? (enum|struct) [A-Za-z0-9_]+/)) {
            split(substr($0, RSTART, RLENGTH), words, " ")
            types[words[3]] = 1
        }
        next
    }

    # Every name of the document, whatever stands round it.
    {
        words_left = $0
        while (match(words_left, /`[^`]+`/)) {
            named[substr(words_left, RSTART + 1, RLENGTH - 2)] = 1
            words_left = substr(words_left, RSTART + RLENGTH)
        }
    }

    # A row of a table: its names, and the files that it names.
    /^\| `/ {
        split($0, cells, " *[|] *")
        count = split(cells[4], files, /[ ,]+/)
        names = cells[2]
        while (match(names, /`[^`]+`/)) {
            name = substr(names, RSTART + 1, RLENGTH - 2)
            names = substr(names, RSTART + RLENGTH)
            found = name in types
            for (n = 1; n <= count; n++) if ((files[n], name) in defined) found = 1
            if (found) { passed++; continue }
            failed++
            printf "%s:%d: %s is not defined in %s\n", FILENAME, FNR, name, cells[4]
        }
    }

    END {
        for (name in place) {
            if (name in named) { passed++; continue }
            failed++
            printf "%s: %s is not named in the document\n", place[name], name
        }
        if (passed + failed == 0) failed++
        printf "%d passed, %d failed\n", passed, failed
        exit failed > 0
    }
' crates/*/specs/*.antt crates/*/src/*.rt "$text"
