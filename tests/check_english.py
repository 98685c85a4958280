#!/usr/bin/env python3
"""Checks the documents: tests/check_english.py

In README.md, docs/MANUAL.md, docs/ARCHITECTURE.md, docs/PROVING.md, docs/DECISIONS.md and docs/DEFINITIONS.md no sentence has more than
40 words. In the first two no line has more than 100 columns; README.md has at most 120 lines. Code blocks, captures and tables are left
aside, and of a link only its text counts. In every .md file each relative link names a file that is there, and its anchor a heading of
that file. Prints each miss, and then 'N passed, M failed'. The exit status is 1 if any failed.
"""
import os
import re
import subprocess
import sys

READ_FIRST = ["README.md", "docs/MANUAL.md"]
READ_LATER = ["docs/ARCHITECTURE.md", "docs/PROVING.md", "docs/DECISIONS.md", "docs/DEFINITIONS.md"]
MOST_WORDS, MOST_COLUMNS, MOST_LINES = 40, 100, {"README.md": 120}
LINK = re.compile(r"!?\[([^\]]*)\]\(([^()\s]*(?:\([^()]*\))?[^()\s]*)\)")
SPAN = re.compile(r"(`+)(?:(?!\1).)+?\1(?!`)")
ITEM = re.compile(r" *(?:[-*]|\d+\.) +")

passed = failed = 0


def judge(is_right, place, says):
    """Counts a check, and prints it where it failed."""
    global passed, failed
    if is_right:
        passed += 1
    else:
        failed += 1
        print(f"{place}: {says}")


def prose_of(lines):
    """Gives (number, line) of each line outside of code blocks; a line of code comes as None."""
    fenced, indented, before = False, False, ""
    for number, line in enumerate(lines, 1):
        is_fence = line.lstrip().startswith("```")
        if not fenced and line.startswith("    ") and (indented or not before.strip()) and line.strip():
            indented = True
        elif line.strip():
            indented = False
        if is_fence or fenced or (indented and line.strip()):
            fenced ^= is_fence
            yield number, None
        else:
            yield number, line
        before = line


def is_table(line):
    return line.lstrip().startswith("|")


def paragraphs_of(lines):
    """Gives (number of the first line, text) of each paragraph, list item and heading, without code and tables."""
    first, text = 0, []
    for number, line in list(prose_of(lines)) + [(0, "")]:
        ends = line is None or not line.strip() or is_table(line)
        if text and (ends or ITEM.match(line) or line.startswith("#")):
            yield first, " ".join(text)
            text = []
        if not ends:
            if not text:
                first = number
                line = ITEM.sub("", line, count=1) if ITEM.match(line) else line
            text.append(line.strip().lstrip("#").strip())
            if line.startswith("#"):
                yield first, " ".join(text)
                text = []


def sentences_of(text):
    """Gives the sentences of a paragraph. A piece of code counts as one word, a link as its text."""
    text = LINK.sub(r"\1", SPAN.sub("Code", text))
    text = text.replace("**", "").replace("*", "")
    return [it for it in re.split(r"(?<=[.!?])[)\"']*\s+(?=[\"'(\[]*[A-Z0-9])", text) if it.strip()]


def words_of(sentence):
    return [it for it in sentence.split() if re.search(r"\w", it)]


def anchors_of(lines):
    """Gives the anchors of a text's headings."""
    found = {}
    anchors = set()
    for _, line in prose_of(lines):
        if line is None or not re.match(r"#{1,6} ", line):
            continue
        text = LINK.sub(r"\1", line.lstrip("#").strip()).replace("`", "").lower()
        anchor = re.sub(r"[^\w\- ]", "", text).replace(" ", "-")
        count = found.get(anchor, 0)
        found[anchor] = count + 1
        anchors.add(f"{anchor}-{count}" if count else anchor)
    return anchors


def read(path):
    with open(path, encoding="utf-8") as file:
        return file.read().split("\n")


def check_lines(path):
    lines = read(path)
    if path in MOST_LINES:
        count = len(lines) - (lines[-1] == "")
        judge(count <= MOST_LINES[path], path, f"{count} lines, and at most {MOST_LINES[path]} are wanted")
    for number, line in prose_of(lines):
        if line is None or is_table(line):
            continue
        columns = len(LINK.sub(r"[\1]", line))
        judge(columns <= MOST_COLUMNS, f"{path}:{number}", f"{columns} columns, and at most {MOST_COLUMNS} are wanted")


def check_sentences(path):
    for number, text in paragraphs_of(read(path)):
        for sentence in sentences_of(text):
            count = len(words_of(sentence))
            judge(count <= MOST_WORDS, f"{path}:{number}", f"{count} words in a sentence: {sentence[:60]}..")


def check_links(path, anchors):
    for number, line in prose_of(read(path)):
        for _, target in LINK.findall(SPAN.sub("", line or "")) if line else []:
            if re.match(r"[a-z]+:", target):
                continue
            name, _, anchor = target.partition("#")
            file = os.path.normpath(os.path.join(os.path.dirname(path), name)) if name else path
            judge(os.path.exists(file), f"{path}:{number}", f"no file {file}")
            if anchor and file.endswith(".md") and os.path.exists(file):
                if file not in anchors:
                    anchors[file] = anchors_of(read(file))
                judge(anchor in anchors[file], f"{path}:{number}", f"no heading #{anchor} in {file}")


def main():
    os.chdir(os.path.join(os.path.dirname(os.path.realpath(__file__)), ".."))
    for path in READ_FIRST:
        check_lines(path)
    for path in READ_FIRST + READ_LATER:
        check_sentences(path)
    listed = subprocess.run(["git", "ls-files", "--cached", "--others", "--exclude-standard", "*.md"], capture_output=True, text=True)
    paths = sorted(set(listed.stdout.split("\n")) - {""})
    if not paths:
        judge(False, "git ls-files", f"names no .md file: {listed.stderr.strip()}")
    anchors = {}
    for path in filter(os.path.exists, paths):
        check_links(path, anchors)
    print(f"{passed} passed, {failed} failed")
    sys.exit(failed > 0)


main()
