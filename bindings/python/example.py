#!/usr/bin/env python3
"""Reads a capture on standard input, and prints after each datagram the best levels of each book that changed:
its slot, the bid and the offer. Lines of other forms are passed over."""
from __future__ import annotations

import sys
from typing import Optional

from mdp_handler import Feed, Handler, Level, Refused


def words_of(level: Optional[Level]) -> str:
    return f"{level.price}x{level.size}" if level else "-"


def print_changed(handler: Handler) -> None:
    for slot in handler.changed():
        best = handler.best(slot)
        print(slot, words_of(best.bid), words_of(best.offer), *["faulty"] * best.is_faulty)
    handler.clear_lines()


def main() -> None:
    lines = sys.stdin.read().splitlines()
    listing = "".join(f"{line}\n" for line in lines if line.startswith("I "))
    with Handler(listing.encode(), lines=False) as handler:
        for line in lines:
            if line[:2] in ("A ", "B ", "S "):
                try:
                    handler.datagram(Feed[line[0]], bytes.fromhex(line[2:]))
                except Refused as error:
                    print(error, file=sys.stderr)
                print_changed(handler)


main()
