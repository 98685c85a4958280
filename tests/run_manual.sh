#!/usr/bin/env bash
# Runs each command that docs/MANUAL.md and README.md show with what it prints, in the order of each page: run_manual.sh PROGRAM
#
# A block `console`, and an indented block that begins with `$ `, has commands behind `$ `, their further lines behind `> `, and what they
# print on both streams. In an indented block a line `..` stands for any lines, and `..` at a line's end for the rest of that line. A block
# `text NAME`, and one `awk` whose first line is `# NAME`, is a file that later commands read. Other blocks are left out: so README shows the
# targets of make. A command that begins as `left_out` says is not run either, since it would prove or install, or needs the network or
# root. Prints each command that prints something else, a line for each that is not run, then one line 'N passed, M failed'. The exit
# status is 1 if any failed, or if a page had no command that was run.
set -u

if [ $# -ne 1 ] || [ ! -x "$1" ]; then
    echo "usage: $0 PROGRAM" >&2
    exit 2
fi
root=$(realpath "$(dirname "$(realpath "$0")")/..")
scratch=$(mktemp -d)
trap 'rm -rf "$scratch"' EXIT
mkdir "$scratch/bin" "$scratch/here"
ln -s "$(realpath "$1")" "$scratch/bin/mdp_handler"
ln -s "$root/examples" "$root/tests" "$scratch/here"
cd "$scratch/here" || exit 2
passed=0
failed=0
left_out='^(make|sudo|apt-get|curl|wget|git clone)( |$)'

# Runs the command, without the line by which tshark warns the system's administrator.
run_command() {
    PATH=$scratch/bin:$PATH timeout 60 bash -c "$command" 2>&1 | sed '/^Running as user "root" and group "root"/d'
}

# Tells whether what was printed is what an indented block shows.
agrees() {
    SHOWN=$shown awk '
        BEGIN {
            pattern = "^"
            count = split(ENVIRON["SHOWN"], lines, "\n") - 1
            for (n = 1; n <= count; n++) {
                line = lines[n]
                is_cut = sub(/\.\.$/, "", line)
                gsub(/[][\\.^$*+?(){}|]/, "\\\\&", line)
                if (is_cut && line == "") pattern = pattern "([^\n]*\n)*"
                else pattern = pattern line (is_cut ? "[^\n]*" : "") "\n"
            }
        }
        { text = text $0 "\n" }
        END { exit text !~ (pattern "$") }
    ' "$scratch/printed"
}

# Runs the command, and tells whether it prints what the page shows.
prints_it() {
    run_command >"$scratch/printed"
    diff "$scratch/printed" <(printf '%s' "$shown") >"$scratch/difference" || { [ "$block" = indented ] && agrees; }
}

# Runs the command that was read last, if there is one, and compares what it prints with what the page shows.
judge() {
    [ -n "$command" ] || return
    if [[ $command =~ $left_out ]]; then
        echo "not run: $command"
    elif [[ $command == *tshark* ]] && ! command -v tshark >/dev/null; then
        echo "not run: there is no tshark"
    elif prints_it; then
        passed=$((passed + 1))
    else
        failed=$((failed + 1))
        printf 'FAILED %s\n' "$command"
        head -n 20 "$scratch/difference"
    fi
    command=
    shown=
}

# Runs the commands of a page.
run_page() {
    local before=$((passed + failed)) block='' file='' command='' shown='' above='' line=''
    while above=$line && IFS= read -r line; do
        case $block:$line in
            :'```console') block=console ;;
            :'```awk') block=awk file= ;;
            :'```text '*) block=text file=${line#'```text '} ;;
            :'```'*) block=other ;;
            :'    $ '*)
                [ -n "$above" ] || block=indented command=${line#'    $ '}
                ;;
            :*) ;;
            indented:'    $ '*)
                judge
                command=${line#'    $ '}
                ;;
            indented:'    > '*)
                command+=$'\n'${line#'    > '}
                ;;
            indented:'    '*) shown+=${line#'    '}$'\n' ;;
            indented:*)
                judge
                block=
                ;;
            *:'```')
                [ "$block" != console ] || judge
                block=
                ;;
            console:'$ '*)
                judge
                command=${line#'$ '}
                ;;
            console:'> '*)
                command+=$'\n'${line#'> '}
                ;;
            console:*) shown+=$line$'\n' ;;
            awk:*)
                [ -n "$file" ] || file=${line#'# '}
                printf '%s\n' "$line" >>"$file"
                ;;
            text:*) printf '%s\n' "$line" >>"$file" ;;
        esac
    done <"$root/$1"
    judge
    if [ $((passed + failed)) -eq "$before" ]; then
        echo "FAILED: no command of $1 was run"
        failed=$((failed + 1))
    fi
}

run_page docs/MANUAL.md
run_page README.md
echo "$passed passed, $failed failed"
[ "$failed" -eq 0 ]
