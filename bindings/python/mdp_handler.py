"""The order books of one CME MDP 3.0 channel, over the proved library for C.

    with Handler(b"I 1 NEAR O\\n") as handler:
        handler.datagram(Feed.A, payload)
        for slot in handler.changed():
            print(slot, handler.best(slot))

It needs Python 3.9. `make library` puts libmdp_handler.so into build/; MDP_HANDLER_LIBRARY names another folder. A handler is never copied.
Several threads may call one, and each call waits for the one before it; two handlers share nothing.
"""
from __future__ import annotations

import ctypes
import os
import threading
from dataclasses import dataclass
from enum import IntEnum
from pathlib import Path
from typing import Callable, Iterator, NoReturn, Optional, Sequence, Union

MOST_SLOTS = 512
MOST_LEVELS = 12


class Feed(IntEnum):
    A = 0
    B = 1
    S = 2


class Start(IntEnum):
    FROM_ONE = 0
    JOIN = 1


class Book(IntEnum):
    DIRECT = 0
    IMPLIED = 1
    CONSOLIDATED = 2


class Side(IntEnum):
    BID = 0
    OFFER = 1


class Fate(IntEnum):
    """What became of a packet."""

    FIRST = 0  # the first copy of its number
    REPEAT = 1  # a packet of its number waits already
    PAST = 2  # its number has passed
    LATE = 3  # its number was given up
    AFTER_CLOSE = 4  # the channel was closed before


NAMES = dict(enumerate((
    "Done TooShort NumberZero SizeCut SizeSmall SizePast Schema BlockShort BlockPast GroupCut GroupShort GroupPast Action EntryType Level "
    "Price Size ChannelReset SnapshotLevels").split()))
NAMES |= {21: "LineForm", 23: "TooLong", 31: "DuplicateId", 32: "UnknownLeg", 33: "TooMany", 34: "None", 41: "Memory", 81: "Closed",
          82: "Open", 83: "OutOfRange", 84: "ArrayTooShort"}


class HandlerError(Exception):
    """What a call can't do: the status in C, of 1 to 41 the program's number, and its word."""

    def __init__(self, status: int) -> None:
        self.status = status
        self.name = NAMES[status]
        super().__init__(f"{status} {self.name}")


class Refused(HandlerError):
    """The datagram is refused, or too long, and counts as one that never came."""


class ListingError(HandlerError, ValueError):
    """Instruments are refused; `place` is a line, from 1, or an index, or None where there is no instrument."""

    def __init__(self, status: int, place: Optional[int]) -> None:
        super().__init__(status)
        self.place = place


class OutOfRange(HandlerError, IndexError):
    """A slot, an option or another number is out of its range."""


class Closed(HandlerError, ValueError):
    """The handler was closed."""


class OutOfMemory(HandlerError, MemoryError):
    """Memory ran out, now or before: the handler takes no more datagrams, and all else is answered as before."""


@dataclass(frozen=True)
class Instrument:
    """An outright; or a calendar spread, which buys `leg1` and sells `leg2`."""

    id: int
    name: str
    depth: int = 10
    leg1: int = 0
    leg2: int = 0


@dataclass(frozen=True)
class Loss:
    """Packet `next` is given up, since packet `highest` came."""

    next: int
    highest: int


@dataclass(frozen=True)
class Jump:
    """Recovery went on at packet `new` in place of `old`, and every book was replaced."""

    old: int
    new: int


@dataclass(frozen=True)
class Became:
    """What became of a datagram: the fate of a packet, or None, and how many snapshots were news and so on; and what it moved."""

    fate: Optional[Fate]
    news: int
    older: int
    unlisted: int
    after_close: int
    loss: Optional[Loss]
    jump: Optional[Jump]


@dataclass(frozen=True)
class Level:
    """A price, in units of 10^-9, and the size there."""

    price: int
    size: int


@dataclass(frozen=True)
class Best:
    """The best level of each consolidated side. A faulty book has neither."""

    bid: Optional[Level]
    offer: Optional[Level]
    is_faulty: bool


@dataclass(frozen=True)
class Fault:
    """The place of the first entry that had none in its book, each number from 1."""

    packet: int
    message: int
    entry: int


@dataclass(frozen=True)
class State:
    """Where the channel stands; `stale` is the slot of the first security that a jump waits for."""

    next: int
    highest: int
    waiting: int
    is_lost: bool
    stale: Optional[int]


# The structs of mdp_handler.h.


class _Handle(ctypes.Structure):
    _fields_ = [("address", ctypes.c_void_p)]


class _Options(ctypes.Structure):
    _fields_ = [("size", ctypes.c_uint64), ("window", ctypes.c_uint32), ("start", ctypes.c_uint32), ("lines", ctypes.c_uint32),
                ("reserved", ctypes.c_uint32)]


class _Instrument(ctypes.Structure):
    _fields_ = [("id", ctypes.c_int32), ("leg1", ctypes.c_int32), ("leg2", ctypes.c_int32), ("depth", ctypes.c_uint8),
                ("length", ctypes.c_uint8), ("name", ctypes.c_uint8 * 20), ("reserved", ctypes.c_uint16)]


class _Became(ctypes.Structure):
    _fields_ = [("kind", ctypes.c_uint32), ("fate", ctypes.c_uint32), ("has_loss", ctypes.c_uint32), ("has_jump", ctypes.c_uint32),
                ("news", ctypes.c_uint64), ("older", ctypes.c_uint64), ("unlisted", ctypes.c_uint64), ("after_close", ctypes.c_uint64),
                ("loss_next", ctypes.c_uint64), ("loss_highest", ctypes.c_uint64), ("jump_old", ctypes.c_uint64),
                ("jump_new", ctypes.c_uint64)]


class _Level(ctypes.Structure):
    _fields_ = [("price", ctypes.c_int64), ("size", ctypes.c_int64)]


class _Best(ctypes.Structure):
    _fields_ = [("bid", _Level), ("offer", _Level), ("has_bid", ctypes.c_uint32), ("has_offer", ctypes.c_uint32),
                ("is_faulty", ctypes.c_uint32), ("reserved", ctypes.c_uint32)]


class _BookFault(ctypes.Structure):
    _fields_ = [("message", ctypes.c_uint64), ("packet", ctypes.c_uint32), ("entry", ctypes.c_uint32), ("is_faulty", ctypes.c_uint32),
                ("reserved", ctypes.c_uint32)]


class _State(ctypes.Structure):
    _fields_ = [("next", ctypes.c_uint64), ("highest", ctypes.c_uint64), ("waiting", ctypes.c_uint64), ("stale", ctypes.c_uint64),
                ("is_lost", ctypes.c_uint32), ("has_stale", ctypes.c_uint32)]


class _Lent(ctypes.Structure):
    _fields_ = [("bytes", ctypes.c_void_p), ("length", ctypes.c_size_t)]


def _load() -> ctypes.CDLL:
    """Loads the library and says what its functions take."""
    folder = os.environ.get("MDP_HANDLER_LIBRARY") or Path(__file__).resolve().parents[2] / "build"
    library = ctypes.CDLL(str(Path(folder) / "libmdp_handler.so"))
    handle, number, size, count = ctypes.POINTER(_Handle), ctypes.c_uint32, ctypes.c_size_t, ctypes.POINTER(ctypes.c_uint64)
    pointer = ctypes.POINTER
    for name, takes in {
        "mdp_open": [pointer(_Options), pointer(_Instrument), size, count],
        "mdp_open_text": [pointer(_Options), ctypes.c_char_p, size, count],
        "mdp_datagram": [number, ctypes.c_char_p, size, pointer(_Became)],
        "mdp_close": [],
        "mdp_lines": [pointer(_Lent)],
        "mdp_clear_lines": [],
        "mdp_changed": [pointer(number), size, count],
        "mdp_is_current": [number, pointer(ctypes.c_bool)],
        "mdp_best": [number, pointer(_Best)],
        "mdp_levels": [number, number, number, pointer(_Level), size, count],
        "mdp_fault": [number, pointer(_BookFault)],
        "mdp_state": [pointer(_State)],
    }.items():
        function = getattr(library, name)
        function.argtypes, function.restype = [handle, *takes], number
    library.mdp_free.argtypes, library.mdp_free.restype = [handle], None
    return library


_library = _load()
_UNTOLD = 2**64 - 1


def _u32(value: int) -> int:
    """A number of 32 bits; ctypes would cut off what is past them."""
    if not 0 <= value < 2**32:
        raise OutOfRange(83)
    return value


def _plain(instrument: Instrument, place: int) -> _Instrument:
    """An instrument as C has it; the library judges it, where its numbers and its name fit in."""
    name = instrument.name.encode()
    if len(name) > 20 or not 0 <= instrument.depth < 256 or any(
            not -2**31 <= it < 2**31 for it in (instrument.id, instrument.leg1, instrument.leg2)):
        raise ListingError(83, place)
    array = (ctypes.c_uint8 * 20)(*name)
    return _Instrument(instrument.id, instrument.leg1, instrument.leg2, instrument.depth, len(name), array, 0)


class Handler:
    """A handler of one channel, opened with a text of `I` lines or with instruments, the legs of a spread before it."""

    def __init__(self, instruments: Union[bytes, Sequence[Instrument]], *, window: int = 1024, start: Start = Start.FROM_ONE,
                 lines: bool = True) -> None:
        self._handle = _Handle()
        self._lock = threading.Lock()
        options = _Options(ctypes.sizeof(_Options), _u32(window), _u32(start), int(lines), 0)
        place = ctypes.c_uint64(_UNTOLD)
        if isinstance(instruments, bytes):
            status = _library.mdp_open_text(self._handle, options, instruments, len(instruments), place)
        else:
            array = (_Instrument * max(1, len(instruments)))(*(_plain(it, at) for at, it in enumerate(instruments)))
            status = _library.mdp_open(self._handle, options, array, len(instruments), place)
        if status == 41 or (status == 83 and place.value == _UNTOLD):
            _fail(status)
        if status:
            raise ListingError(status, None if place.value == _UNTOLD else place.value)

    def __enter__(self) -> Handler:
        return self

    def __exit__(self, *_: object) -> None:
        self.free()

    def __del__(self) -> None:
        if hasattr(self, "_lock"):
            self.free()

    def __reduce__(self) -> NoReturn:
        raise TypeError("a handler is never copied")

    __copy__ = __reduce__

    def __deepcopy__(self, memo: object) -> NoReturn:
        self.__reduce__()

    def free(self) -> None:
        """Frees what the handler owns. Each later call raises Closed."""
        with self._lock:
            _library.mdp_free(self._handle)

    def _call(self, function: Callable[..., int], *arguments: object) -> None:
        with self._lock:
            status = function(self._handle, *arguments)
        if status:
            _fail(status)

    def datagram(self, feed: Feed, payload: bytes) -> Became:
        """Takes in a datagram, and tells what became of it. Raises Refused where it is refused, and nothing changes."""
        became = _Became()
        self._call(_library.mdp_datagram, _u32(feed), payload, len(payload), became)
        return Became(
            fate=Fate(became.fate) if became.kind == 1 else None,
            news=became.news, older=became.older, unlisted=became.unlisted, after_close=became.after_close,
            loss=Loss(became.loss_next, became.loss_highest) if became.has_loss else None,
            jump=Jump(became.jump_old, became.jump_new) if became.has_jump else None)

    def close(self) -> None:
        """Takes in that the channel was closed: no packet passes from now on, and no snapshot counts."""
        self._call(_library.mdp_close)

    def lines(self) -> bytes:
        """The lines that are held, a copy."""
        lent = _Lent()
        with self._lock:
            status = _library.mdp_lines(self._handle, lent)
            lines = b"" if status else ctypes.string_at(lent.bytes, lent.length)
        if status:
            _fail(status)
        return lines

    def clear_lines(self) -> None:
        """Lets the lines go, and the marks of what changed."""
        self._call(_library.mdp_clear_lines)

    def changed(self) -> Iterator[int]:
        """The slots whose books were printed since lines were let go last, ascending, as they are at this call."""
        slots, count = (ctypes.c_uint32 * MOST_SLOTS)(), ctypes.c_uint64()
        self._call(_library.mdp_changed, slots, MOST_SLOTS, count)
        return iter(slots[:count.value])

    def is_current(self, slot: int) -> bool:
        """Whether the book at a slot is the complete feed's right before the packet that comes next."""
        current = ctypes.c_bool()
        self._call(_library.mdp_is_current, _u32(slot), current)
        return current.value

    def best(self, slot: int) -> Best:
        """The best level of each consolidated side of the book at a slot."""
        best = _Best()
        self._call(_library.mdp_best, _u32(slot), best)
        return Best(_level(best.bid) if best.has_bid else None, _level(best.offer) if best.has_offer else None, bool(best.is_faulty))

    def levels(self, slot: int, book: Book, side: Side) -> Iterator[Level]:
        """The levels of a side of a book at a slot, the best first, as they are at this call; a faulty book has none."""
        levels, count = (_Level * MOST_LEVELS)(), ctypes.c_uint64()
        self._call(_library.mdp_levels, _u32(slot), _u32(book), _u32(side), levels, MOST_LEVELS, count)
        return iter([_level(it) for it in levels[:count.value]])

    def fault(self, slot: int) -> Optional[Fault]:
        """Where the book at a slot became faulty, if it is."""
        fault = _BookFault()
        self._call(_library.mdp_fault, _u32(slot), fault)
        return Fault(fault.packet, fault.message, fault.entry) if fault.is_faulty else None

    def state(self) -> State:
        """Where the channel stands."""
        state = _State()
        self._call(_library.mdp_state, state)
        return State(state.next, state.highest, state.waiting, bool(state.is_lost), state.stale if state.has_stale else None)


def _level(level: _Level) -> Level:
    return Level(level.price, level.size)


def _fail(status: int) -> NoReturn:
    """Raises what a status says."""
    if status <= 18 or status == 23:
        raise Refused(status)
    raise {41: OutOfMemory, 81: Closed, 83: OutOfRange}.get(status, HandlerError)(status)
