#!/usr/bin/env python3
"""Tests of the module: what each call answers, what each fault is raised as, copies, and threads. Prints 'N passed, M failed'."""
from __future__ import annotations

import copy
import pickle
import sys
import threading
from typing import Callable

from mdp_handler import (Became, Best, Book, Closed, Fate, Feed, Handler, Instrument, Level, ListingError, OutOfRange,
                         Refused, Side, State)

LISTING = b"I 1 NEAR O\n"
# Packet 1 of examples/plain.capture: a bid of 5 at 100.
PACKET = bytes.fromhex("01000000000000000000000038000b002e000100090000000000000000008000002000016400000000000000050000000100000000000000"
                       "010000000100300000000000")
TEXT = b"D 1.1 NEAR B 100x5 O\nI 1.1 NEAR B O\nC 1.1 NEAR B 100x5 O\n"

passed = failed = 0


def check(found: object, wanted: object, says: str) -> None:
    global passed, failed
    if found == wanted:
        passed += 1
    else:
        failed += 1
        print(f"calls.py: {says}: {found}, wanted {wanted}")


def raised(error: type, call: Callable[[], object]) -> object:
    """The status of the error that a call raises, True for one without a status, and None where it raises another or none."""
    try:
        call()
    except error as it:
        return getattr(it, "status", True)
    except Exception:  # any other is as wrong as none
        pass
    return None


def check_book() -> None:
    with Handler(LISTING) as handler:
        check(handler.datagram(Feed.A, PACKET), Became(Fate.FIRST, 0, 0, 0, 0, None, None), "the first packet")
        check(handler.datagram(Feed.B, PACKET).fate, Fate.PAST, "its copy")
        check(handler.lines(), TEXT, "lines")
        check(list(handler.changed()), [0], "changed")
        check(handler.best(0), Best(Level(100, 5), None, False), "best")
        check(list(handler.levels(0, Book.DIRECT, Side.BID)), [Level(100, 5)], "bids")
        check(list(handler.levels(0, Book.IMPLIED, Side.OFFER)), [], "implied offers")
        check((handler.fault(0), handler.is_current(0)), (None, True), "fault and current")
        check(handler.state(), State(2, 1, 0, False, None), "state")
        handler.clear_lines()
        check((handler.lines(), list(handler.changed())), (b"", []), "cleared")
        check(raised(Refused, lambda: handler.datagram(Feed.A, b"")), 1, "an empty datagram")
        check(raised(Refused, lambda: handler.datagram(Feed.A, bytes(2049))), 23, "a long datagram")
        for slot in (1, 512, -1, 2**32):
            for call in (handler.best, handler.fault, handler.is_current, lambda it: handler.levels(it, Book.DIRECT, Side.BID)):
                check(raised(OutOfRange, lambda: call(slot)), 83, f"slot {slot}")
        for copied in (copy.copy, copy.deepcopy, pickle.dumps):
            check(raised(TypeError, lambda: copied(handler)), True, "a copy")
        handler.close()
        check(handler.datagram(Feed.A, PACKET).fate, Fate.AFTER_CLOSE, "after the close")
    for call in (handler.state, handler.lines, handler.changed, handler.close, lambda: handler.best(0)):
        check(raised(Closed, call), 81, "a freed handler")
    handler.free()


def check_listing() -> None:
    near, far = Instrument(1, "NEAR"), Instrument(2, "FAR", depth=5)
    Handler([near, far, Instrument(3, "CAL", leg1=1, leg2=2)]).free()
    for listing, status, place in (
            ([], 34, None), ([near, near], 31, 1), ([near, Instrument(3, "CAL", leg1=1, leg2=2)], 32, 1), ([Instrument(0, "N")], 83, 0),
            ([near, Instrument(2**31, "N")], 83, 1), ([Instrument(1, "N" * 21)], 83, 0), ([Instrument(1, "N", depth=256)], 83, 0),
            (b"", 34, None), (b"Q\n", 21, 1), (LISTING + LISTING, 31, 2)):
        try:
            Handler(listing)
            check("opened", status, f"{listing!r}")
        except ListingError as error:
            check((error.status, error.place), (status, place), f"{listing!r}")
    for window in (0, 65537, -1, 2**32 + 1):
        check(raised(OutOfRange, lambda: Handler(LISTING, window=window)), 83, f"window {window}")


def check_threads() -> None:
    """One handler that two threads call, and the memory of its lines."""
    with Handler(LISTING, lines=True) as handler:
        def call() -> None:
            for _ in range(2000):
                handler.datagram(Feed.A, PACKET)
                texts.add(handler.lines())

        texts: set[bytes] = set()
        threads = [threading.Thread(target=call) for _ in range(2)]
        for thread in threads:
            thread.start()
        for thread in threads:
            thread.join()
        check(texts, {TEXT}, "lines in two threads")


check_book()
check_listing()
check_threads()
print(f"{passed} passed, {failed} failed")
sys.exit(failed > 0)
