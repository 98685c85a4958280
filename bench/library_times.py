#!/usr/bin/env python3
"""Passes what came on a channel to a handler of the library in Python, one datagram after another, and lets go what it made after each that
may have changed a book, as library_times.c does: library_times.py lines|books|nothing < capture. With `nothing` the capture is only read.
"""
import sys
from pathlib import Path

sys.path.insert(0, str(Path(__file__).resolve().parent.parent / "bindings" / "python"))
from mdp_handler import Fate, Feed, Handler  # noqa: E402

word = sys.argv[1] if len(sys.argv) == 2 else ""
if word not in ("lines", "books", "nothing"):
    sys.exit("the first argument is lines, books or nothing")
lines = sys.stdin.buffer.read().splitlines(keepends=True)
listing = b"".join(line for line in lines if line.startswith(b"I"))
datagrams = [(Feed[chr(line[0])], bytes.fromhex(line[2:].decode())) for line in lines if line[:1] in (b"A", b"B", b"S")]
if word != "nothing":
    firsts = jumps = books = size = 0
    with Handler(listing, window=65536, lines=word == "lines") as handler:
        for feed, payload in datagrams:
            became = handler.datagram(feed, payload)
            firsts += became.fate == Fate.FIRST
            jumps += became.jump is not None
            if became.fate not in (None, Fate.FIRST):
                continue
            books += sum(1 for _ in handler.changed())
            size += len(handler.lines()) if word == "lines" else 0
            handler.clear_lines()
    print(f"{len(datagrams)} datagrams, {firsts} first copies, {jumps} jumps, {books} books, {size} bytes of text")
