#!/usr/bin/env bash
# Cuts and bends datagrams, and looks at what becomes of them: run_cut_and_bent.sh PROGRAM READER
#
# READER is the program datagram_rows. A datagram is cut to each length, and each of its bytes is set to 0 and to 255. Each change of
# each datagram of the rows and the examples has one answer, which is a packet, snapshots or a refusal by number and name; and this
# answer is told beforehand of a cut of a good datagram and of a change before the first message. Then runs over rows with all good
# datagrams on feed B: with a changed one that is refused on feed A before the good copy, the text gains its X line and nothing else;
# with a changed one that is accepted and keeps its number behind the good copy, it gains nothing. Prints what is otherwise, then one
# line 'N passed, M failed', where each datagram counts, and each row on one thread and over threads. The exit status is 1 if any failed.
set -u

# Rows whose text is the same for every merge of the feeds, and has no X line.
rows="plain_path two_legs_and_a_spread event_end_inside_a_packet recovery recovery_unequal_snapshots"

if [ $# -ne 2 ] || [ ! -x "$1" ] || [ ! -x "$2" ]; then
    echo "usage: $0 PROGRAM READER" >&2
    exit 2
fi
program=$(realpath "$1")
reader=$(realpath "$2")
cd "$(dirname "$(realpath "$0")")/.." || exit 2
scratch=$(mktemp -d)
trap 'rm -rf "$scratch"' EXIT
passed=0
failed=0

# Counts a case as passed where $2, what was wrong about it, is empty.
judge() {
    if [ -z "$2" ]; then
        passed=$((passed + 1))
    else
        failed=$((failed + 1))
        echo "FAILED $1"
        head -n 5 <<<"$2"
    fi
}

# Reads lines of a capture, and prints each datagram on one line: what reads it, its digits, and the line's number.
datagrams_of() {
    tr -d '\r' | awk -v OFS='\t' '
        /^[ABS] [0-9a-fA-F]+$/ && length($2) % 2 == 0 && length($2) <= 4096 {
            print ($1 == "S" ? "snapshot" : "packet"), tolower($2), NR
        }'
}

# Reads such lines, and prints behind each the datagram as it is and all of its changes, each with what READER answers to it:
# what reads it, its digits, its number, the change, the place of the byte or the length, the answer.
answers_of() {
    awk -F '\t' -v OFS='\t' '
        {
            print $1, $2, $3, "whole", 0
            count = length($2) / 2
            for (place = 0; place < count; place++) {
                before = substr($2, 1, 2 * place)
                behind = substr($2, 2 * place + 3)
                print $1, before, $3, "cut", place
                print $1, before "00" behind, $3, "0", place
                print $1, before "ff" behind, $3, "255", place
            }
        }' >"$scratch/changes"
    # Where READER ends with a fault there is no answer.
    { echo; cat "$scratch/changes"; } | "$reader" >"$scratch/answers" || : >"$scratch/answers"
    paste "$scratch/changes" "$scratch/answers"
}

# Reads what answers_of prints, and prints what is wrong about each datagram, one line each, and nothing where all is as it must be.
faults_of_answers() {
    awk -F '\t' '
        BEGIN {
            names = "TooShort NumberZero SizeCut SizeSmall SizePast Schema BlockShort BlockPast GroupCut GroupShort GroupPast"
            count = split(names " Action EntryType Level Price Size ChannelReset SnapshotLevels", name, " ")
            for (n = 1; n <= count; n++) refusals[n " " name[n]] = 1
        }

        # The number of `count` bytes from `place` on, the lowest first.
        function number_at(digits, place, count,    n, number) {
            number = 0
            for (n = place + count; n > place; n--) {
                number = number * 16 + index("0123456789abcdef", substr(digits, 2 * n - 1, 1)) - 1
                number = number * 16 + index("0123456789abcdef", substr(digits, 2 * n, 1)) - 1
            }
            return number
        }

        # Where the messages of a good datagram end, and the header.
        function find_ends(digits,    place) {
            split("", ends)
            for (place = 12; 2 * place < length(digits); place += number_at(digits, place, 2)) ends[place] = 1
            ends[place] = 1
        }

        # What a good datagram answers that is cut to this length.
        function answer_of_cut(place) {
            if (place < 12) return "1 TooShort"
            if (place in ends) return "ok"
            return (place - 1) in ends ? "3 SizeCut" : "5 SizePast"
        }

        # What a datagram answers with another header: a packet has the number there, and nothing else is looked at.
        function answer_of_header(digits,    number, rest) {
            if (what != "packet" || length(digits) < 24) return whole
            number = number_at(digits, 0, 4)
            if (number == 0) return "2 NumberZero"
            if (whole !~ /^ok/) return whole == "2 NumberZero" ? "" : whole
            rest = whole
            sub(/^ok packet [0-9]+/, "", rest)
            return sprintf("ok packet %.0f", number) rest
        }

        # Whether there is such an answer.
        function is_answer(answer) {
            if (answer in refusals) return 1
            return answer ~ (what == "packet" ? "^ok packet [1-9][0-9]*( [(]|$)" : "^ok snapshots [0-9]+( [(]|$)")
        }

        # Whether it is the wanted one, where one is: of a good packet that is cut it is a beginning of what the whole one answers.
        function is_wanted(answer, wanted) {
            if (wanted == "ok") return answer ~ /^ok/ && (what == "snapshot" || index(whole, answer) == 1)
            return wanted == "" || answer == wanted
        }

        {
            wanted = ""
            if ($4 == "whole") {
                what = $1
                whole = $6
                find_ends($2)
            } else if ($4 == "cut") {
                if (whole ~ /^ok/) wanted = answer_of_cut($5)
            } else if ($5 < 12) {
                wanted = answer_of_header($2)
            }
            if (!is_answer($6) || !is_wanted($6, wanted)) print $3 "\t" $4 " " $5 " answers " $6 ", wanted " wanted
        }'
}

# Runs the program with the words behind $1 and $2 over the row's lines, of which $2 is put in as number $1, and keeps in `found`
# what it prints and tells, with a status that is not 0. It starts nothing else, since there are thousands of such runs.
run_with() {
    local line=$1 added=$2
    shift 2
    printf '%s\n' "${lines[@]:0:line - 1}" "$added" "${lines[@]:line - 1}" >"$scratch/capture"
    timeout 10 "$program" "$@" <"$scratch/capture" >"$scratch/out" 2>&1 || echo "status $?" >>"$scratch/out"
    IFS= read -r -d '' found <"$scratch/out"
}

# Prints what is wrong about the runs of the row $1 with the words behind it; nothing where all is as it must be.
faults_of_runs() {
    local row=$1 text head last what digits line change place answer number wanted found late=B
    shift
    # Over threads the other feed's packet might come first.
    [[ " $* " != *" --in-order "* ]] || late=A
    IFS= read -r -d '' text <"$row/stdout"
    last=Z${text##*Z}
    head=${text%Z*}
    while IFS=$'\t' read -r what digits line change place answer; do
        wanted=$text
        case $change/$answer in
            whole/*)
                number=${answer#ok packet }
                number=${number%% *}
                run_with "$line" "" "$@"
                ;;
            */"ok packet $number" | */"ok packet $number "*) run_with "$((line + 1))" "$late $digits" "$@" ;;
            */ok*) continue ;;
            *)
                wanted="${head}X A $line $answer"$'\n'$last
                run_with "$line" "A $digits" "$@"
                ;;
        esac
        [ "$found" = "$wanted" ] || diff -u --label wanted --label "$change $place of line $line" <(echo -n "$wanted") <(echo -n "$found")
    done <"$scratch/row"
}

cat tests/rows/*/capture examples/*.capture | datagrams_of | sort -u -k 1,2 >"$scratch/datagrams"
answers_of <"$scratch/datagrams" | faults_of_answers >"$scratch/faults"
while IFS=$'\t' read -r what digits number; do
    judge "$what $digits" "$(grep "^$number"$'\t' "$scratch/faults")"
done <"$scratch/datagrams"

for name in $rows; do
    row=tests/rows/$name
    mapfile -t lines < <(sed 's/^A /B /' "$row/capture")
    # An empty datagram has no line in a capture.
    printf '%s\n' "${lines[@]/#S */}" | datagrams_of | answers_of | awk -F '\t' '$2 != ""' >"$scratch/row"
    mapfile -t words < <(grep -v -- '--in-order' "$row/args")
    for way in --in-order --workers=2; do
        judge "$name with $way" "$(faults_of_runs "$row" "${words[@]}" "$way")"
    done
done
echo "$passed passed, $failed failed"
[ "$failed" -eq 0 ]
