#!/usr/bin/env python3
"""Prints for a capture on standard input what mdp_handler prints of it with --in-order: text.py [--window N] [--join] < capture

Skipped lines are not told. The exit statuses are the program's: 0; 1 where memory, a read or a write failed; 2 where the words or the
capture are refused.
"""
from __future__ import annotations

import argparse
import re
import sys
from typing import Iterator

from mdp_handler import Feed, Handler, HandlerError, ListingError, OutOfRange, Refused, Start

DATAGRAM = re.compile(rb"([ABS]) ((?:[0-9a-fA-F]{2}){1,2048})")


class InstrumentLate(Exception):
    """An `I` line stands after a datagram or the close."""


def lines_of(capture: bytes) -> Iterator[tuple[int, bytes]]:
    """The lines with their numbers, without their ends."""
    *ended, last = capture.split(b"\n")
    yield from enumerate((line.removesuffix(b"\r") for line in ended), 1)
    yield len(ended) + 1, last


def is_listing(line: bytes) -> bool:
    """Whether this is an `I` line, whether its instrument can be listed or not. The library is asked."""
    try:
        Handler(line, window=1).free()
    except ListingError as error:
        return error.status != 21
    return True


def listing_of(capture: bytes) -> bytes:
    """The `I` lines, all of which stand before the rest."""
    listing, has_begun = [], False
    for _, line in lines_of(capture):
        if line.startswith(b"I") and is_listing(line):
            if has_begun:
                raise InstrumentLate("35 InstrumentLate")
            listing.append(line + b"\n")
        elif line == b"X" or DATAGRAM.fullmatch(line):
            has_begun = True
    return b"".join(listing)


def follow(handler: Handler, capture: bytes) -> None:
    refused: list[tuple[Feed, int, Refused]] = []
    for number, line in lines_of(capture):
        try:
            if line == b"X":
                handler.close()
            elif datagram := DATAGRAM.fullmatch(line):
                feed = Feed[datagram[1].decode()]
                handler.datagram(feed, bytes.fromhex(datagram[2].decode()))
        except Refused as refusal:
            refused.append((feed, number, refusal))
        finally:
            sys.stdout.buffer.write(handler.lines())
            handler.clear_lines()
    for feed, number, refusal in sorted(refused, key=lambda it: it[:2]):
        sys.stdout.buffer.write(f"X {feed.name} {number} {refusal}\n".encode())
    state = handler.state()
    sys.stdout.buffer.write(f"Z {state.next} {'lost' if state.is_lost else 'live'}\n".encode())
    sys.stdout.buffer.flush()


def main() -> int:
    words = argparse.ArgumentParser()
    words.add_argument("--window", type=int, default=1024)
    words.add_argument("--join", action="store_true")
    options = words.parse_args()
    try:
        capture = sys.stdin.buffer.read()
        start = Start.JOIN if options.join else Start.FROM_ONE
        with Handler(listing_of(capture), window=options.window, start=start) as handler:
            follow(handler, capture)
    except (ListingError, OutOfRange, InstrumentLate) as error:
        print(error, file=sys.stderr)
        return 2
    except (HandlerError, OSError) as error:
        print(error, file=sys.stderr)
        return 1
    return 0


sys.exit(main())
