"""The proved map of dust sensors, haul roads and stockpiles, for Python.

    from dustmap import Map, Rect

    m = Map(slots=128)
    m.insert(7, (0, 0, 10, 10))
    for number, rect in m.search((10, 10, 20, 20)):
        print(number, rect)

Rectangles are low x, low y, high x, high y in whole millimetres, and touching counts. What a surveyor or dispatch gives in floats becomes one by
`Rect.from_box`, `Rect.from_point` and `Rect.from_disc`:

    m.insert(8, Rect.from_box(-2.5, 0.25, 4.0, 8.75))
    m.search(Rect.from_disc(12.5, 3.0, 7.5))

`search` lists every record that meets the window. A planner who closes a block wants only those inside it, or only those that enclose it:

    m.search_inside((0, 0, 50, 50))
    m.search_enclosing((2, 2, 3, 3))

Before the truck leaves, the map tells whether an insert will fit, by the slots that it needs and those that are free:

    if m.room((20, 0, 30, 10)).fits:
        m.insert(9, (20, 0, 30, 10))

All the records go to another office as the bytes of one file, which a map there reads:

    file = m.write()
    there = Map(slots=64)
    there.read(file)

Two owners share a map of edition 2. Each batch is one owner's, and sees and changes that owner's records only:

    shared = Map(slots=128, edition=2)
    shared.insert(7, (0, 0, 10, 10))
    shared.insert(7, (0, 0, 10, 10), owner=2)
    shared.delete(7, (0, 0, 10, 10), owner=2)
    shared.search((0, 0, 10, 10))

What the map refuses is raised as `Refused`, with the number and its words; in a batch each request has its own answer, and a refused one does not
stop the others. What cannot be asked at all, as a float for a whole number or a number beyond 32 bits, is a TypeError or a ValueError before
anything is done.

It needs Python 3.10 or later, and nothing but the standard library. The map itself is target/sharedlib/libdustmap.so, which `tools/library` proves
and writes; the environment variable DUSTMAP_LIBRARY names another place for it. docs/NUMBERS.md has the numbers with their words.
"""

from __future__ import annotations

import ctypes
import enum
import functools
import operator
import os
import struct
import threading
from collections.abc import Iterable, Sequence
from dataclasses import dataclass
from pathlib import Path
from typing import Any, NamedTuple, Optional, Union, overload

# The words of a pool before its first slot, and of a slot of edition 1; `Edition` has those of each.
HEAD_WORDS = 8
SLOT_WORDS = 42
# "Slots N: 1 to 4,096. A batch has 0 to 1,024 requests."
MOST_SLOTS = 4_096
MOST_REQUESTS = 1_024
# Coordinates are from minus this to this.
FARTHEST = 1_000_000_000
# The bytes of a file's first and last frame together, and of the frame of a record of edition 1.
FILE_ENDS = 16
RECORD_BYTES = 24
# The rule for a split: the only one there is.
QUADRATIC = 0

INSERT, DELETE, UPDATE, SEARCH, SEARCH_INSIDE, SEARCH_ENCLOSING = 1, 2, 3, 4, 5, 6
KINDS = {
    INSERT: "insert",
    DELETE: "delete",
    UPDATE: "update",
    SEARCH: "search",
    SEARCH_INSIDE: "search inside",
    SEARCH_ENCLOSING: "search enclosing",
}
# "A search carries one of three modes".
SEARCHES = (SEARCH, SEARCH_INSIDE, SEARCH_ENCLOSING)


class Edition(enum.IntEnum):
    """The edition of a map, or of a file: there is no other. In edition 2 each record has an owner."""

    ONE = 1
    TWO = 2

    @property
    def slot_words(self) -> int:
        """The words of a slot: eight more in edition 2, an owner for each entry."""
        return SLOT_WORDS if self is Edition.ONE else SLOT_WORDS + 8

    @property
    def record_bytes(self) -> int:
        """The bytes of a record's frame in a file."""
        return RECORD_BYTES if self is Edition.ONE else RECORD_BYTES + 4


class Meaning(NamedTuple):
    """A number with its words: whether a call or a request is refused, when, and what to do about it."""

    number: int
    name: str
    effect: str
    when: str
    what_to_do: str

    def __str__(self) -> str:
        return f"{self.number} {self.name} ({self.effect}): {self.when}. What to do: {self.what_to_do}."


# Written by `tools/numbers` from bindings/numbers.txt: do not edit by hand.
ACCEPTED = 0
BAD_LISTS = 9
BAD_OWNER = 13
BAD_LENGTH = 1
NOT_SOUND = 2
NO_REQUEST = -1
BAD_SURVEY = 12
BAD_FRAME = 10
BAD_RECTANGLE = 3
BAD_NUMBER = 4
NOT_AFTER = 11
NOT_HELD = 5
HELD = 6
NO_SLOT = 7
NO_ROOM = 8

# every number with its words, in the order of checks
NUMBERS: dict[int, Meaning] = {
    ACCEPTED: Meaning(
        ACCEPTED,
        "accepted",
        "as defined",
        "accepted",
        "nothing; the change is made, the search is answered, or the file is written or read",
    ),
    BAD_LISTS: Meaning(
        BAD_LISTS,
        "bad lists",
        "call refused",
        "more than 1,024 requests, or answer list of another length than the request list",
        "hand over at most 1,024 requests in one call, and an answer list with one place for each; where there are more, make several calls",
    ),
    BAD_OWNER: Meaning(
        BAD_OWNER,
        "bad owner",
        "call refused",
        "another owner than 1 or 2, of a batch or of a record in a file",
        "make the call for owner 1 or owner 2, whatever the edition of the pool; a file with another owner has been changed: get the whole file again from the office that wrote it. The pool is as it was",
    ),
    BAD_LENGTH: Meaning(
        BAD_LENGTH,
        "bad length",
        "call refused",
        "pool length wrong, or workspace length differs from the pool's",
        "lend a pool of 8 + 42N words for N slots, or of 8 + 50N where its word 0 is 2 or edition 2 is told, N from 1 to 4,096, and a workspace of the same length; a file of another length is cut, or is no pool",
    ),
    NOT_SOUND: Meaning(
        NOT_SOUND,
        "not sound",
        "call refused",
        "pool not sound",
        "do not use this pool; it is damaged, or is no pool. Take the last good copy and make the later changes again, or insert every record into a blank one",
    ),
    NO_REQUEST: Meaning(
        NO_REQUEST,
        "no request",
        "call refused",
        "a request is of none of the six kinds; or blanking or reading is told an edition or a rule that there is none of",
        "give each request the kind 1 insert, 2 delete, 3 update, 4 search, 5 search inside or 6 search enclosing; tell the edition 1 or 2, and the rule 0",
    ),
    BAD_SURVEY: Meaning(
        BAD_SURVEY,
        "bad survey",
        "call refused",
        "a NaN, an infinity, low above high, a negative radius, or a centre, radius or finished coordinate beyond 1,000,000,000 in size",
        "give finite numbers in millimetres, no low above its high and no radius below 0; the rectangle that comes of them, with a disc's one millimetre more, has to lie from -1,000,000,000 to 1,000,000,000",
    ),
    BAD_FRAME: Meaning(
        BAD_FRAME,
        "bad frame",
        "call refused",
        "a wrong frame, edition or count, or bytes after kind 18",
        "get the whole file again from the office that wrote it; this one is cut, has been changed, is of another edition than told, or is no map's file. The pool is as it was",
    ),
    BAD_RECTANGLE: Meaning(
        BAD_RECTANGLE,
        "bad rectangle",
        "request or call refused",
        "window, old or new rectangle: a coordinate out of range, or low above high",
        "give low x, low y, high x, high y, in this order, in whole millimetres from -1,000,000,000 to 1,000,000,000, no low above high",
    ),
    BAD_NUMBER: Meaning(
        BAD_NUMBER,
        "bad number",
        "request or call refused",
        "record number below 1",
        "give a record number from 1 to 2,147,483,647",
    ),
    NOT_AFTER: Meaning(
        NOT_AFTER,
        "not after",
        "call refused",
        "a record not after its predecessor",
        "put the file's records in order of number, low x, low y, high x, high y, each pair once, in edition 2 owner 1's first, as a written file has them. The pool is as it was",
    ),
    NOT_HELD: Meaning(
        NOT_HELD,
        "not held",
        "request refused",
        "delete or update: old pair not held",
        "give the record number with the rectangle exactly as it is held; a search of that place lists what is there. In edition 2 each owner holds its own pairs",
    ),
    HELD: Meaning(
        HELD,
        "held",
        "request refused",
        "insert: pair held; update: new pair held and not the old pair",
        "insert: nothing, if this pair is meant; it is in force already. Update: both pairs are in force; delete the old one if it is to go. In edition 2 the other owner's pairs do not count",
    ),
    NO_SLOT: Meaning(
        NO_SLOT,
        "no slot",
        "request or call refused",
        "the rules call for a slot at a moment when none is free",
        "delete what is no longer needed (in edition 2 both owners' records take slots) and ask again, or blank a pool with more slots (4,096 at most) and insert every record there; N slots are enough for every file of up to 2N + 1 records, and room (dustmap_room in C) tells beforehand whether an insert fits",
    ),
    NO_ROOM: Meaning(
        NO_ROOM,
        "no room",
        "request or call refused",
        "search: more found than places left in the found list; file: its buffer is short",
        "ask again with a longer found list (the answer says how many records this search finds), or with a smaller window; for a search enclosing, with a larger one; for a file, with a longer buffer (16 + 192N bytes are enough for N slots, and 16 + 224N in edition 2)",
    ),
}
# End of what `tools/numbers` writes.


class Rect(NamedTuple):
    """A closed rectangle in whole millimetres. A plain tuple of four ints does as well wherever one is asked for."""

    low_x: int
    low_y: int
    high_x: int
    high_y: int

    @staticmethod
    def from_box(low_x: float, low_y: float, high_x: float, high_y: float) -> Rect:
        """The rectangle of a box in millimetres: a low becomes the largest whole number not above it, a high the smallest not below.

        Refused 12 for a NaN, an infinity, low above high, or a coordinate that is then beyond 1,000,000,000 in size; no request is refused 3 for it.
        """
        return _made("dustmap_box", low_x=low_x, low_y=low_y, high_x=high_x, high_y=high_y)

    @staticmethod
    def from_point(x: float, y: float) -> Rect:
        """The rectangle of a point: a box with low equal to high."""
        return _made("dustmap_point", x=x, y=y)

    @staticmethod
    def from_disc(x: float, y: float, radius: float) -> Rect:
        """The window of a disc: the centre less and plus the radius as floats, rounded outward, then one millimetre further.

        It holds the exact box of the disc and is less than 3 mm beyond it on each side. Refused 12 as a box is, and for a negative radius.
        """
        return _made("dustmap_disc", x=x, y=y, radius=radius)


class Record(NamedTuple):
    """A record: its number and its rectangle. Their order is found order."""

    number: int
    rect: Rect


class Room(NamedTuple):
    """What an insert would need of a map, and what the map has: slots."""

    needed: int
    free: int

    @property
    def fits(self) -> bool:
        """Whether the insert fits: it is not refused 7."""
        return self.needed <= self.free

    def __bool__(self) -> bool:
        """The same, so that `if m.room(rect):` asks what it seems to ask."""
        return self.fits


WHOLE_SITE = Rect(-FARTHEST, -FARTHEST, FARTHEST, FARTHEST)
_NO_RECT = Rect(0, 0, 0, 0)


def _word(value: Any, what: str) -> int:
    """The value as a signed 32-bit word. ctypes would cut what does not fit and take True for 1: so it is refused here."""
    if isinstance(value, bool):
        raise TypeError(f"{what}: {value!r} is a bool, not a whole number")
    try:
        number = operator.index(value)
    except TypeError:
        raise TypeError(f"{what}: {value!r} is not a whole number") from None
    if not -(2**31) <= number < 2**31:
        raise ValueError(f"{what}: {number} does not fit a signed 32-bit word")
    return number


def _double(value: Any, what: str) -> float:
    """The value as a double: a float, or a whole number. A Decimal or a Fraction may lose something in a double, so its owner is to say `float`."""
    if isinstance(value, bool):
        raise TypeError(f"{what}: {value!r} is a bool, not a number")
    if isinstance(value, float):
        return float(value)
    try:
        return float(operator.index(value))
    except TypeError:
        raise TypeError(f"{what}: {value!r} is neither a float nor a whole number") from None
    except OverflowError:
        raise ValueError(f"{what}: the whole number does not fit a double") from None


def _made(function: str, **given: Any) -> Rect:
    """The rectangle that a function of the library makes of doubles."""
    doubles = [_double(value, name.replace("_", " ")) for name, value in given.items()]
    words = (ctypes.c_int32 * 4)()
    number = getattr(_library(str(library_path())), function)(*doubles, words)
    if number != ACCEPTED:
        raise Refused(number)
    return Rect(*words)


def _rect(value: Any, what: str) -> Rect:
    """The value as a rectangle of four words. Whether low is above high, or a coordinate out of range, is for the map to say (3)."""
    if not isinstance(value, Sequence) or isinstance(value, (str, bytes, bytearray, memoryview)):
        raise TypeError(f"{what}: {value!r} is not a tuple of low x, low y, high x, high y")
    if len(value) != 4:
        raise ValueError(f"{what}: {value!r} has {len(value)} numbers, where a rectangle has four: low x, low y, high x, high y")
    return Rect(*(_word(v, f"{what}, {name.replace('_', ' ')}") for v, name in zip(value, Rect._fields)))


def _count(value: Any, what: str, least: int, most: int) -> int:
    """The value as a count in that range."""
    number = _word(value, what)
    if not least <= number <= most:
        raise ValueError(f"{what}: {number} is not from {least:,} to {most:,}")
    return number


def _edition(value: Any) -> Edition:
    """The value as an edition that there is. A float that equals one is none: so is what `_word` refuses."""
    number = _word(value, "edition")
    try:
        return Edition(number)
    except ValueError:
        raise ValueError(f"edition: {number} is none of {', '.join(str(int(e)) for e in Edition)}") from None


@dataclass(frozen=True)
class Request:
    """One request of a batch. `Request.insert`, `delete`, `update`, `search`, `search_inside` and `search_enclosing` make them.

    Fields that the kind does not use are not looked at.
    """

    kind: int
    number: int
    first: Rect
    second: Rect = _NO_RECT

    def __post_init__(self) -> None:
        """Takes nothing that the call's words cannot hold."""
        object.__setattr__(self, "kind", _word(self.kind, "kind"))
        object.__setattr__(self, "number", _word(self.number, "record number"))
        for field in ("first", "second"):
            object.__setattr__(self, field, _rect(getattr(self, field), f"{field} rectangle"))

    @staticmethod
    def insert(number: int, rect: Sequence[int]) -> Request:
        """To bring a pair into force."""
        return Request(INSERT, number, _rect(rect, "rectangle"))

    @staticmethod
    def delete(number: int, rect: Sequence[int]) -> Request:
        """To take a pair off the map: the number and the rectangle exactly as they are held."""
        return Request(DELETE, number, _rect(rect, "rectangle"))

    @staticmethod
    def update(number: int, old: Sequence[int], new: Sequence[int]) -> Request:
        """To put another rectangle in the place of one that is held under the number."""
        return Request(UPDATE, number, _rect(old, "old rectangle"), _rect(new, "new rectangle"))

    @staticmethod
    def search(window: Sequence[int]) -> Request:
        """To list every record whose rectangle meets the window."""
        return Request(SEARCH, 0, _rect(window, "window"))

    @staticmethod
    def search_inside(window: Sequence[int]) -> Request:
        """To list those records alone that lie inside the window."""
        return Request(SEARCH_INSIDE, 0, _rect(window, "window"))

    @staticmethod
    def search_enclosing(window: Sequence[int]) -> Request:
        """To list those records alone that enclose the window."""
        return Request(SEARCH_ENCLOSING, 0, _rect(window, "window"))

    def __str__(self) -> str:
        kind = KINDS.get(self.kind, f"kind {self.kind}")
        number = "" if self.kind in SEARCHES else f" {self.number}"
        to = f" to {tuple(self.second)}" if self.kind == UPDATE else ""
        return f"{kind}{number} {tuple(self.first)}{to}"


class Refused(Exception):
    """A refusal: its number, the words for it, and the request, or None where the call was refused as a whole.

    A search refused 8 has `found` and `opened` as they would have been; they are zero beside every other refusal.
    """

    def __init__(self, number: int, request: Optional[Request] = None, found: int = 0, opened: int = 0) -> None:
        super().__init__(number, request, found, opened)
        self.number, self.request, self.found, self.opened = number, request, found, opened
        self.meaning = NUMBERS[number]

    def __str__(self) -> str:
        asked = "" if self.request is None else f"{self.request}: "
        room = f" It finds {self.found}." if self.number == NO_ROOM else ""
        return f"{asked}{self.meaning}{room}"


@dataclass(frozen=True)
class Answer:
    """What came of one request of a batch: the number, 0 where it is accepted, and for a search the records found and the nodes opened.

    A search refused 8 has `found` and `opened` as they would have been, and lists no record.
    """

    request: Request
    number: int
    found: int
    opened: int
    records: tuple[Record, ...]

    @property
    def accepted(self) -> bool:
        """Whether the request was done."""
        return self.number == ACCEPTED

    @property
    def meaning(self) -> Meaning:
        """The words for the number."""
        return NUMBERS[self.number]

    def or_raise(self) -> Answer:
        """The answer, where the request was done; else its refusal is raised."""
        if not self.accepted:
            raise Refused(self.number, self.request, self.found, self.opened)
        return self


@dataclass(frozen=True)
class Found(Sequence[Record]):
    """The records that a search found, in found order (number, low x, low y, high x, high y), and how many nodes it opened."""

    records: tuple[Record, ...]
    opened: int

    def __len__(self) -> int:
        return len(self.records)

    @overload
    def __getitem__(self, place: int) -> Record: ...
    @overload
    def __getitem__(self, place: slice) -> tuple[Record, ...]: ...
    def __getitem__(self, place: Union[int, slice]) -> Union[Record, tuple[Record, ...]]:
        return self.records[place]


class LibraryMissing(OSError):
    """The shared library is not there, or is not that of the map."""


def library_path() -> Path:
    """Where the shared library is looked for: the environment variable DUSTMAP_LIBRARY, else the repository's target folder."""
    named = os.environ.get("DUSTMAP_LIBRARY")
    return Path(named).resolve() if named else Path(__file__).resolve().parents[2] / "target" / "sharedlib" / "libdustmap.so"


# The functions of dustmap.h with their parameters: a list is a pointer and a count; the four words of a rectangle are a pointer, and so are the two that
# `room` writes and a number that is written.
_LIST, _DOUBLE, _WORDS, _NUMBER = [ctypes.c_void_p, ctypes.c_size_t], [ctypes.c_double], [ctypes.c_void_p], [ctypes.POINTER(ctypes.c_uint64)]
_TOLD = [ctypes.c_int32]  # an owner, an edition or a rule
_FUNCTIONS = {
    "dustmap_blank": _LIST,
    "dustmap_blank_as": _LIST + _TOLD * 2,
    "dustmap_check": _LIST,
    "dustmap_call": _LIST * 5,
    "dustmap_call_as": _LIST * 5 + _TOLD,
    "dustmap_room": _LIST + _WORDS * 2,
    "dustmap_box": _DOUBLE * 4 + _WORDS,
    "dustmap_point": _DOUBLE * 2 + _WORDS,
    "dustmap_disc": _DOUBLE * 3 + _WORDS,
    "dustmap_write": _LIST * 2 + _NUMBER,
    "dustmap_read": _LIST * 3,
    "dustmap_read_as": _LIST * 3 + _TOLD * 2,
}


@functools.lru_cache(maxsize=None)
def _library(path: str) -> ctypes.CDLL:
    """The shared library, its functions declared as dustmap.h has them."""
    hint = "Run `tools/library` in the repository, which proves and writes target/sharedlib/libdustmap.so, or name it in DUSTMAP_LIBRARY."
    try:
        library = ctypes.CDLL(path)
        for name, parameters in _FUNCTIONS.items():
            function = getattr(library, name)
            function.argtypes = parameters
            function.restype = ctypes.c_int32
    except (OSError, AttributeError) as error:
        raise LibraryMissing(f"the map's library cannot be loaded: {error}. {hint}") from None
    return library


def _parts(words: Any, size: int) -> tuple[Any, int]:
    """A list for the library: where its words stand, and how many parts of that many words it has."""
    return words, len(words) // size


class Map:
    """A map that owns its pool and its workspace. It may be used from several threads: each call waits until the one before has ended.

    Where an `owner` is asked for, it is 1 or 2, and any other is refused 13. In a map of edition 2 a batch sees and changes that owner's records
    only, and a pair is held by each owner for itself; a map of edition 1 serves both alike. The owners share the slots: that a request is refused 7
    is all that an owner's answers tell of the other's records. `len`, `room`, `write` and `words` tell of both.
    """

    def __init__(self, slots: int = 128, edition: int = Edition.ONE) -> None:
        """A blank map of 1 to 4,096 slots. A slot holds a node of up to 8 records or nodes; they are never added later (7)."""
        told = _edition(edition)
        self._own(HEAD_WORDS + told.slot_words * _count(slots, "slots", 1, MOST_SLOTS))
        self._accept(self._library.dustmap_blank_as(*_parts(self._pool, 1), told, QUADRATIC))

    @classmethod
    def of(cls, words: Union[bytes, bytearray, memoryview, Sequence[int]]) -> Map:
        """A map of a copy of these words, or of these bytes, four to a word, little-endian. They are checked, not trusted.

        Word 0 says which edition they are of. Refused 1 where their number is wrong, and 2 where they are no sound pool.
        """
        made = cls.__new__(cls)
        made._own_words(_pool_words(words))
        made._accept(made._library.dustmap_check(*_parts(made._pool, 1)))
        return made

    def _own(self, length: int) -> None:
        """Pool and workspace of so many words, all zero."""
        self._library = _library(str(library_path()))
        self._lock = threading.Lock()
        self._pool = (ctypes.c_int32 * length)()
        self._work = (ctypes.c_int32 * length)()

    def _own_words(self, words: Sequence[int]) -> None:
        """A pool of these words."""
        self._own(len(words))
        self._pool[:] = words

    @staticmethod
    def _accept(number: int) -> None:
        """Raises the refusal of a whole call."""
        if number != ACCEPTED:
            raise Refused(number)

    def insert(self, number: int, rect: Sequence[int], *, owner: int = 1) -> None:
        """Brings the pair into force."""
        self.batch([Request.insert(number, rect)], owner=owner)[0].or_raise()

    def delete(self, number: int, rect: Sequence[int], *, owner: int = 1) -> None:
        """Takes the pair off the map: the number and the rectangle exactly as they are held."""
        self.batch([Request.delete(number, rect)], owner=owner)[0].or_raise()

    def update(self, number: int, old: Sequence[int], new: Sequence[int], *, owner: int = 1) -> None:
        """Puts the new rectangle in the place of the old one, which is held under the number."""
        self.batch([Request.update(number, old, new)], owner=owner)[0].or_raise()

    def search(self, window: Sequence[int], places: Optional[int] = None, *, owner: int = 1) -> Found:
        """Every record whose rectangle meets the window. With `places`, a search that finds more than that is refused 8."""
        return self._found(Request.search(window), places, owner)

    def search_inside(self, window: Sequence[int], places: Optional[int] = None, *, owner: int = 1) -> Found:
        """Only the records that lie inside the window. They may touch its sides from within, and one equal to it is inside.

        It opens the nodes that `search` opens. With `places`, a search that finds more than that is refused 8.
        """
        return self._found(Request.search_inside(window), places, owner)

    def search_enclosing(self, window: Sequence[int], places: Optional[int] = None, *, owner: int = 1) -> Found:
        """Only the records that enclose the window: it lies inside them, and one equal to it encloses it.

        It opens the nodes that `search` opens. With `places`, a search that finds more than that is refused 8.
        """
        return self._found(Request.search_enclosing(window), places, owner)

    def _found(self, search: Request, places: Optional[int], owner: int) -> Found:
        """What a search found; or its refusal is raised."""
        answer = self.batch([search], places, owner=owner)[0].or_raise()
        return Found(answer.records, answer.opened)

    def records(self, *, owner: int = 1) -> tuple[Record, ...]:
        """Every record on the map, in edition 2 every one of that owner, in found order."""
        return self.search(WHOLE_SITE, owner=owner).records

    def batch(self, requests: Iterable[Request], places: Optional[int] = None, *, owner: int = 1) -> list[Answer]:
        """Does each request in turn, in one call, and gives the answer to each in its place. A refused request does not stop those after it.

        The batch is that owner's; no node is reported as opened in a map of edition 2.

        More than 1,024 requests are refused 9, and nothing is done: they are not split, since a batch is either taken as a whole or refused as a
        whole, and only its caller knows where it may be parted.

        The found list grows until every search of the batch has room, so that none is refused 8. With `places` it has that many for all the searches
        together, and a search that finds more than are left is answered 8, with `found` and `opened` as they would have been.

        Where an exception comes out of this, the map is as it was before.
        """
        asked = list(requests)
        for place, request in enumerate(asked):
            if not isinstance(request, Request):
                raise TypeError(f"request {place} of the batch: {request!r} is not a Request")
        if places is not None:
            places = _count(places, "places", 0, 2**31 - 1)
        whose = _word(owner, "owner")
        with self._lock:
            before = bytes(self._pool)
            try:
                return self._ask(asked, places, whose, before)
            except BaseException:
                self._put_back(before)
                raise

    def _ask(self, asked: list[Request], places: Optional[int], owner: int, before: bytes) -> list[Answer]:
        """The answers to a batch. Where the found list grows, the batch is done again from the pool as it was before.

        What has been found and what would have been found is then the room that it needs: a search changes nothing.
        """
        searches = sum(request.kind in SEARCHES for request in asked)
        answers, found = self._call(asked, 64 * searches if places is None else places, owner)
        if places is None and NO_ROOM in answers[0::4]:
            self._put_back(before)
            answers, found = self._call(asked, sum(answers[1::4]), owner)
        return [self._answer(request, answers[4 * k : 4 * k + 4], found) for k, request in enumerate(asked)]

    def _call(self, asked: list[Request], places: int, owner: int) -> tuple[list[int], Sequence[int]]:
        """One call of the library: the answers, four words each, and the found list, five words each."""
        words = [word for r in asked for word in (r.kind, r.number, *r.first, *r.second)]
        requests = (ctypes.c_int32 * len(words))(*words)
        answers = (ctypes.c_uint32 * (4 * len(asked)))()
        found = (ctypes.c_int32 * (5 * places))()
        lists = ((self._pool, 1), (self._work, 1), (requests, 10), (answers, 4), (found, 5))
        self._accept(self._library.dustmap_call_as(*(part for words, size in lists for part in _parts(words, size)), owner))
        return list(answers), found

    @staticmethod
    def _answer(request: Request, answer: list[int], found: Sequence[int]) -> Answer:
        """The answer to a request: number, found, start, opened; with the records that it has listed."""
        number, count, start, opened = answer
        listed = count if number == ACCEPTED else 0
        words = found[5 * start : 5 * (start + listed)]
        records = (Record(words[k], Rect(*words[k + 1 : k + 5])) for k in range(0, len(words), 5))
        return Answer(request, number, count, opened, tuple(records))

    def _put_back(self, before: bytes) -> None:
        """The pool as it was before."""
        ctypes.memmove(self._pool, before, len(before))

    def room(self, rect: Sequence[int]) -> Room:
        """The slots that an insert of the rectangle would need, and those that are free, in the map as it is. Nothing is changed.

        An insert that nothing else is wrong with is refused 7 exactly where it needs more than are free. A change that is made before it, in the same
        batch or by the other owner too, may alter both. It needs one for each node of the run of full nodes from the leaf that it would go to upward,
        and one more where the run includes the root: none where that leaf is not full, and never more than the height plus one. Refused 3 for a bad
        rectangle.
        """
        words = (ctypes.c_int32 * 4)(*_rect(rect, "rectangle"))
        slots = (ctypes.c_uint32 * 2)()
        with self._lock:
            self._accept(self._library.dustmap_room(*_parts(self._pool, 1), words, slots))
        return Room(*slots)

    def write(self) -> bytes:
        """The file that carries the map's records to another office, for `read` to take there: each pair once, in found order.

        It is of the map's edition; in edition 2 it has owner 1's records, then owner 2's. It takes 512 KiB of the stack of the thread that calls it.
        """
        # a node has up to eight records
        file = (ctypes.c_uint8 * (FILE_ENDS + self.edition.record_bytes * 8 * self.slots))()
        length = ctypes.c_uint64()
        with self._lock:
            self._accept(self._library.dustmap_write(*_parts(self._pool, 1), *_parts(file, 1), ctypes.byref(length)))
        return memoryview(file)[: length.value].tobytes()

    def read(self, file: Union[bytes, bytearray, memoryview]) -> None:
        """Puts the records of a file in the place of all that is on the map. The map keeps the slots that it has, and its edition.

        N slots take every file of up to 2N + 1 records, and none of more than 8N. Refused 10, 3, 4, 13, 11 or 7 where a frame of the file is at
        fault, for the first one that is, 10 too where it is of the other edition; the map is then as it was before.
        """
        if not isinstance(file, (bytes, bytearray, memoryview)):
            raise TypeError(f"file: {type(file).__name__} is not the bytes of a file")
        data = bytes(file)
        with self._lock:
            lists = (*_parts(self._pool, 1), *_parts(self._work, 1), *_parts(data, 1))
            self._accept(self._library.dustmap_read_as(*lists, self.edition, QUADRATIC))

    def words(self) -> list[int]:
        """A copy of the pool, word by word."""
        with self._lock:
            return list(self._pool)

    def to_bytes(self) -> bytes:
        """A copy of the pool as bytes, four to a word, little-endian: what to keep on a disk, for `Map.of` to take."""
        return struct.pack(f"<{len(self._pool)}i", *self.words())

    def __reduce__(self) -> tuple[Any, ...]:
        """How a map is copied and pickled: as bytes, which are checked again, so that no two maps share a pool."""
        return type(self).of, (self.to_bytes(),)

    @property
    def edition(self) -> Edition:
        """The edition of the map, which nothing that is asked of it changes."""
        return Edition(self._pool[0])

    @property
    def slots(self) -> int:
        """How many slots the pool has."""
        return (len(self._pool) - HEAD_WORDS) // self.edition.slot_words

    @property
    def free_slots(self) -> int:
        """How many of them are free: their level is 0."""
        with self._lock:
            return self._pool[HEAD_WORDS :: self.edition.slot_words].count(0)

    @property
    def height(self) -> int:
        """The height of the tree."""
        with self._lock:
            return self._pool[2]

    def __len__(self) -> int:
        """How many records are on the map, in edition 2 those of both owners."""
        with self._lock:
            return self._pool[3]

    def __repr__(self) -> str:
        count, edition = len(self), "" if self.edition is Edition.ONE else f" of edition {self.edition:d}"
        return f"<Map{edition}: {count} record{'s' * (count != 1)}, height {self.height}, {self.free_slots} of {self.slots} slots free>"


def _pool_words(words: Any) -> Sequence[int]:
    """The words handed in, each of them one that fits."""
    if isinstance(words, (bytes, bytearray, memoryview)):
        data = bytes(words)
        if len(data) % 4:
            raise ValueError(f"pool: {len(data)} bytes are no whole number of words, four bytes each")
        return struct.unpack(f"<{len(data) // 4}i", data)
    if not isinstance(words, Sequence) or isinstance(words, str):
        raise TypeError(f"pool: {type(words).__name__} is neither bytes nor a sequence of whole numbers")
    return [_word(word, f"word {place} of the pool") for place, word in enumerate(words)]
