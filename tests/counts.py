#!/usr/bin/env python3
"""Tells how long and how wide the repository's code is: tests/counts.py [COMMIT]

Prints lines of source, of definitions and of proofs; functions with more than 7 parameters; lines past 100 and past 120 columns;
clauses past 100 columns; definitions with more than 5 arguments, the implicit ones aside; lemmas that nothing names but the lines that
begin with their names; and the longest chain of crates. Tests and imports are left out of the counts of columns, and the crates that
serve tests and measurements out of all but the lines and lemmas. Of COMMIT, where one is given, else of the files as they lie here.
"""
import collections
import re
import subprocess
import sys

# The crates that serve tests and measurements alone.
BESIDE = {"refusing", "worked_runs", "layer_tests", "datagram_rows", "lane_times", "handler_times", "board_demo", "channel_jobs"}
CLAUSE = re.compile(r"\s*(ensures|requires)\b")


def git(*words):
    return subprocess.run(["git", *words], check=True, capture_output=True, text=True).stdout


def files(commit):
    """Returns the texts of the files of crates/, and crates.txt, by their paths."""
    listed = git("ls-tree", "-r", "--name-only", commit) if commit else git("ls-files")
    paths = [it for it in listed.split("\n") if it == "crates.txt" or re.fullmatch(r"crates/.*\.(rt|antt)", it)]
    if commit:
        return {path: git("show", f"{commit}:{path}") for path in paths}
    return {path: open(path, encoding="utf-8").read() for path in paths}


def part_of(path):
    """Returns the crate of a file, and which part of it the file is."""
    crate, part = path.split("/")[1:3]
    is_test = crate == "layer_tests" or re.search(r"/tests(/|\.rt)", path)
    return crate, "tests" if part == "src" and is_test else part


def parameters(text):
    """Returns how many parameters each function of a source file has, `self` among them."""
    for found in re.finditer(r"\bfn \w+(<[^(]*>)?\(", text):
        depth, at, count, is_empty = 1, found.end(), 0, True
        while depth:
            char = text[at]
            depth += (char in "(<[") - (char in ")>]" and text[at - 1 : at + 1] not in ("->", "=>"))
            count += char == "," and depth == 1
            is_empty = is_empty and (depth == 0 or char.isspace())
            at += 1
        yield 0 if is_empty else count + (not re.search(r",\s*\)$", text[found.end() : at]))


def groups(head):
    """Returns the outermost groups in brackets of a definition's head, and what is left between them."""
    found, left, depth, start = [], "", 0, 0
    for at, char in enumerate(head):
        if char in "({":
            start = start if depth else at
            depth += 1
        left += "" if depth else char
        if char in ")}":
            depth -= 1
            found += [] if depth else [head[start : at + 1]]
    return found, left


def arguments(text):
    """Returns how many arguments a use of each public definition of a file of specs/ writes; implicit ones are not written."""
    for head in re.findall(r"^(?:abbrev |unfoldable |opaque )*pub (?:record |data )?\w+ ?(.*?)(?: where|\n\w)", text, re.M | re.S):
        found, left = groups(head)
        named = [len(it[1:].split(":")[0].split()) for it in found if re.match(r"\([\w\s]+:", it)]
        if "→" in left:
            yield left.count("→") - sum(it.startswith("{") for it in found) + sum(named) - len(named)
        else:
            yield sum(named)


def unnamed(texts):
    """Returns the lemmas that nothing names but the lines that begin with their names."""
    named = collections.Counter(word for text in texts.values() for word in re.findall(r"[^\s(){}\[\],;.:]+", text))
    for path, text in texts.items():
        if part_of(path)[1] == "proofs" and not path.endswith(("/Answers.antt", "/Invariants.antt", "/Proof.antt")):
            begun = re.findall(r"^(?:abbrev )?(?:pub )?(?:record )?([^\s(){}]+)(?=\s)( :)?", text, re.M)
            own = collections.Counter(name for name, _ in begun)
            yield from (name for name in {name for name, colon in begun if colon} if named[name] == own[name])


def longest_chain(text):
    """Returns the crates of the longest chain, lowest first."""
    lines = [it.split("#")[0] for it in text.split("\n")]
    below = {it.split(":")[0].split()[0]: it.split(":")[1].split() for it in lines if ":" in it}
    chains = {}

    def chain(name):
        if name not in chains:
            chains[name] = max((chain(it) for it in below[name] if it in below), key=len, default=[]) + [name]
        return chains[name]

    return max(map(chain, below), key=len)


def main():
    texts = files(sys.argv[1] if len(sys.argv) > 1 else None)
    chain = longest_chain(texts.pop("crates.txt"))
    lines, wide, clauses, many, long_definitions = {}, {}, [0, 0], [], []
    for path, text in texts.items():
        crate, part = part_of(path)
        lines[part] = lines.get(part, 0) + text.count("\n")
        if crate in BESIDE or part not in ("src", "specs"):
            continue
        for line in text.split("\n"):
            if re.match(r"\s*(pub |ghost )*use ", line):
                continue
            for columns in (100, 120):
                wide[part, columns] = wide.get((part, columns), 0) + (len(line) > columns)
            if part == "src" and CLAUSE.match(line):
                clauses[0] += len(line) > 100
                clauses[1] += 1
        if part == "src":
            many += [count for count in parameters(text) if count > 7]
        else:
            long_definitions += [count for count in arguments(text) if count > 5]
    for part in ("src", "specs", "proofs", "tests"):
        print(f"{lines[part]} lines of {part}")
    print(f"{len(many)} functions with more than 7 parameters, the most {max(many, default=7)}")
    for part in ("src", "specs"):
        print(f"{wide[part, 100]} lines of {part} past 100 columns, {wide[part, 120]} past 120")
    print(f"{clauses[0]} of {clauses[1]} clauses begin with a line past 100 columns")
    print(f"{len(long_definitions)} definitions with more than 5 arguments, the most {max(long_definitions, default=5)}")
    lemmas = sorted(unnamed(texts))
    print(f"{len(lemmas)} lemmas that nothing names{': ' if lemmas else ''}{' '.join(lemmas)}")
    print(f"{len(chain)} crates in the longest chain: {' '.join(chain)}")


main()
