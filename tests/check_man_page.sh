#!/usr/bin/env bash
# Holds the manual page against the program's help and its sources: check_man_page.sh PROGRAM
#
# Each option of `PROGRAM --help` and each range and default that stands with it must stand in docs/mdp_handler.1 too, and the page must
# have no other option. So must each form of a line, each exit status with its words, and each number and name of what is refused,
# skipped or told, as the sources number and name them. Prints each miss, and then 'N passed, M failed'. The exit status is 1 if any failed.
set -u

if [ $# -ne 1 ] || [ ! -x "$1" ]; then
    echo "usage: $0 PROGRAM" >&2
    exit 2
fi
program=$(realpath "$1")
cd "$(dirname "$(realpath "$0")")/.." || exit 2
"$program" --help | python3 -c '
import glob, re, sys

page = open("docs/mdp_handler.1", encoding="utf-8").read()
# The words of the page without its macros and escapes, with one space between any two.
text = re.sub(r"^\.\\\".*$", "", page, flags=re.M)
text = re.sub(r"^\.(SH|TP|PP|nf|fi|TH|BR|BI|B|IR|I|RB|RI)\b ?", "", text, flags=re.M)
text = text.replace("\\~", " ").replace("\\-", "-").replace("\\&", "").replace("\"", "")
plain = " ".join(text.split()).replace(" , ", ", ")
help_text = sys.stdin.read()
passed = failed = 0

def judge(is_right, says):
    global passed, failed
    passed += is_right
    failed += not is_right
    if not is_right:
        print("docs/mdp_handler.1:", says)

def stands(words, of="the help"):
    words = " ".join(words.split())
    judge(words in plain, f"lacks what {of} says: {words}")

options = re.search(r"^Options:\n(.*?)\n\n", help_text, re.S | re.M).group(1).split("\n")
named = set()
for line in options:
    match = re.match(r" *((?:-\w, )?--[\w-]+(?: <[A-Z]+>)?) +(.*)", line)
    judge(bool(match), f"the help has an option in another form: {line}")
    if match:
        named |= set(re.findall(r"--?[\w-]+", match.group(1)))
        stands(re.sub(r"<([A-Z]+)>", r"\1", match.group(1)))
        stands(match.group(2))
section = re.search(r"^\.SH OPTIONS\n(.*?)^\.SH ", page, re.S | re.M).group(1).replace("\\-", "-")
for name in re.findall(r"(?<![\w-])--?[A-Za-z][\w-]*", section):
    judge(name in named, f"has an option that the help lacks: {name}")
for line in re.findall(r"^  ([A-Z] [A-Z].*?|X)  +(\S.*)$", help_text, re.M):
    stands(line[0])
for words in ("J OLD NEW", "X FEED LINE NUMBER NAME", "Z NEXT live", "Z NEXT lost", "2,048 bytes", "10^-9"):
    judge(words in " ".join(help_text.split()), f"the help lacks: {words}")
    stands(words)
statuses = help_text[help_text.index("Exit status"):]
found = re.findall(r"^  (\d)  (.*?)(?=^  \d  |\Z)", statuses, re.S | re.M)
judge(len(found) == 3, "the help has not three exit statuses")
for number, words in found:
    stands(f"{number} {words}")

# The numbers and names of the sources: where one function numbers and another names the same, and where a text has both.
sources = {}
for path in sorted(glob.glob("crates/*/src/**/*.rt", recursive=True)):
    if "tests" in path:
        continue
    source = open(path, encoding="utf-8").read()
    numbers = dict(re.findall(r"(\w+::\w+)(?:\([^)]*\)| \{[^}]*\})? => (\d+),", source))
    names = dict(re.findall(r"(\w+::\w+)(?:\([^)]*\)| \{[^}]*\})? => \"([A-Z]\w+)\",", source))
    both = set(numbers) & set(names)
    if both:
        judge(set(numbers) == set(names), f"{path} numbers and names different ones")
    for which in both:
        sources.setdefault(int(numbers[which]), set()).add(names[which])
    for number, name in re.findall(r"\"([1-7]\d) ([A-Z]\w+)", source):
        sources.setdefault(int(number), set()).add(name)
listed = [(int(number), name) for number, name in re.findall(r"\b(\d+) ([A-Z]\w+)",
    re.search(r"^\.SH NUMBERS\n(.*?)^\.SH ", page, re.S | re.M).group(1))]
for number, names in sorted(sources.items()):
    for name in names:
        judge((number, name) in listed, f"lacks {number} {name}")
wanted = [n for first, last in ((1, 18), (21, 23), (31, 35), (41, 43), (51, 57), (61, 64), (71, 74)) for n in range(first, last + 1)]
judge([number for number, _ in listed] == wanted, f"lists the numbers {[number for number, _ in listed]}, where {wanted} are wanted")
version = re.search(r"\.version\(\"(.*?)\"\)", open("crates/mdp_handler/src/settings.rt", encoding="utf-8").read()).group(1)
stands(f"mdp_handler {version}")
print(f"{passed} passed, {failed} failed")
sys.exit(failed > 0)
'
