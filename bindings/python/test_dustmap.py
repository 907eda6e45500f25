#!/usr/bin/env python3
"""Tests of the Python module. `tools/python` builds the library and runs them; the last line counts."""

from __future__ import annotations

import array
import copy
import ctypes
import io
import math
import os
import pickle
import random
import struct
import subprocess
import sys
import threading
import unittest
from decimal import Decimal
from fractions import Fraction
from pathlib import Path
from typing import Any, Callable, Optional, Sequence, TextIO
from unittest import mock

sys.dont_write_bytecode = True
ROOT = Path(__file__).resolve().parents[2]
sys.path.insert(0, str(ROOT / "bindings" / "python"))

import dustmap  # noqa: E402
from dustmap import Answer, Edition, LibraryMissing, Map, Record, Rect, Refused, Request, Room  # noqa: E402

ZONE = (0, 0, 10, 10)
MOST = 1_000_000_000
# the functions of dustmap.h
FUNCTIONS = {f"dustmap_{name}" for name in ("blank", "check", "call", "room", "box", "point", "disc", "write", "read")}
FUNCTIONS |= {f"dustmap_{name}_as" for name in ("blank", "call", "read")}

# Document 01's table and document 02's refusals, copied from them and not from bindings/numbers.txt, so that a slip there is seen. What refuses a
# request in document 01's table refuses the call where a file is written or read, or where it is asked whether an insert fits.
DOCUMENT = {
    0: ("accepted", "as defined"),
    9: ("more than 1,024 requests, or answer list of another length than the request list", "call refused"),
    13: ("another owner than 1 or 2, of a batch or of a record in a file", "call refused"),
    1: ("pool length wrong, or workspace length differs from the pool's", "call refused"),
    2: ("pool not sound", "call refused"),
    12: (
        "a NaN, an infinity, low above high, a negative radius, or a centre, radius or finished coordinate beyond 1,000,000,000 in size",
        "call refused",
    ),
    10: ("a wrong frame, edition or count, or bytes after kind 18", "call refused"),
    3: ("window, old or new rectangle: a coordinate out of range, or low above high", "request or call refused"),
    4: ("record number below 1", "request or call refused"),
    11: ("a record not after its predecessor", "call refused"),
    5: ("delete or update: old pair not held", "request refused"),
    6: ("insert: pair held; update: new pair held and not the old pair", "request refused"),
    7: ("the rules call for a slot at a moment when none is free", "request or call refused"),
    8: ("search: more found than places left in the found list; file: its buffer is short", "request or call refused"),
}


# A block that is to be closed; zones about it, records 1 to 12, and the modes that list each: meeting, inside, enclosing.
BLOCK = Rect(0, 0, 100, 80)
ZONES = [
    ("within", Rect(20, 20, 40, 30), "meeting inside"),
    ("touching two sides from within", Rect(0, 70, 30, 80), "meeting inside"),
    ("as wide as the block", Rect(0, 10, 100, 20), "meeting inside"),
    ("a point at its corner", Rect(100, 80, 100, 80), "meeting inside"),
    ("equal", BLOCK, "meeting inside enclosing"),
    ("around it", Rect(-10, -10, 110, 90), "meeting enclosing"),
    ("around it, three sides in common", Rect(0, 0, 100, 81), "meeting enclosing"),
    ("cut by a side", Rect(90, 30, 110, 40), "meeting"),
    ("across it", Rect(-10, 40, 110, 50), "meeting"),
    ("touching a side from outside", Rect(100, 0, 120, 80), "meeting"),
    ("touching a corner from outside", Rect(-10, -10, 0, 0), "meeting"),
    ("one millimetre away", Rect(101, 0, 120, 80), ""),
]
MODES = {"meeting": Request.search, "inside": Request.search_inside, "enclosing": Request.search_enclosing}


def nine() -> list[Request]:
    """The entries of site example 7 as records 1 to 9."""
    return [Request.insert(k + 1, (10 * k, 0, 10 * k + 10, 10)) for k in range(8)] + [Request.insert(9, (1000, 0, 1010, 10))]


def row_of(count: int, slots: int) -> Map:
    """A map of so many records, each its own square in a row."""
    m = Map(slots)
    for first in range(0, count, dustmap.MOST_REQUESTS):
        last = min(count, first + dustmap.MOST_REQUESTS)
        for answer in m.batch(Request.insert(k + 1, (10 * k, 0, 10 * k + 5, 5)) for k in range(first, last)):
            answer.or_raise()
    return m


class Case(unittest.TestCase):
    """What several of the tests ask."""

    def refused(self, number: int, ask: Callable[[], Any]) -> Refused:
        """That it is refused with that number and with its words; the refusal."""
        with self.assertRaises(Refused) as caught:
            ask()
        refusal = caught.exception
        self.assertEqual(refusal.number, number)
        self.assertEqual(refusal.meaning, dustmap.NUMBERS[number])
        for words in (str(number), refusal.meaning.name, refusal.meaning.when, refusal.meaning.what_to_do):
            self.assertIn(words, str(refusal))
        return refusal

    def refused_request(self, number: int, m: Map, request: Request, places: Optional[int] = None) -> Answer:
        """That the request is answered with that number in a batch, is raised by itself, and changes nothing; its answer."""
        before = m.words()
        answer, after = m.batch([request, Request.search((MOST, MOST, MOST, MOST))], places)
        self.assertEqual((answer.number, answer.accepted, answer.records), (number, False, ()))
        self.assertEqual(answer.meaning, dustmap.NUMBERS[number])
        self.assertTrue(after.accepted, "a refused request does not stop those after it")
        self.assertEqual(self.refused(number, answer.or_raise).request, request)
        self.assertEqual(m.words(), before, "a refused request changes nothing")
        return answer


class Examples(Case):
    """Document 01's own, what dispatch does with doubles, what a planner does with the modes of a search, how a map is carried, what is asked
    before an insert, and how two owners share a map."""

    def test_as_a_user_writes_it(self) -> None:
        m = Map(slots=128)
        m.insert(7, (0, 0, 10, 10))
        found = m.search((10, 10, 20, 20))
        self.assertEqual(found.records, (Record(7, Rect(0, 0, 10, 10)),))
        self.assertEqual((len(found), found.opened, found[0].number, found[0].rect.high_x), (1, 1, 7, 10))
        self.assertEqual([(number, tuple(rect)) for number, rect in found], [(7, ZONE)])
        self.assertEqual(repr(m), "<Map: 1 record, height 1, 127 of 128 slots free>")
        self.assertFalse(m.search((11, 0, 20, 10)), "nothing found is an empty sequence")

    def test_the_scripts(self) -> None:
        for name in ("document", "survey", "modes", "carry", "room", "neighbour"):
            script = ROOT / "bindings" / "python" / f"{name}.py"
            run = subprocess.run([sys.executable, "-B", script], stdout=subprocess.PIPE, check=True, text=True)
            self.assertEqual(run.stdout, (ROOT / "examples" / f"{name}.lines").read_text())

    def test_the_frames_of_the_examples(self) -> None:
        for frames in sorted((ROOT / "examples").glob("*.frames")):
            with self.subTest(frames.name):
                self.assertEqual(printed(frames.read_bytes()), frames.with_suffix(".lines").read_text())

    def test_searches_of_nine(self) -> None:
        m = Map(12)
        m.batch(nine())
        for window, numbers, opened in (((55, 0, 58, 10), [6], 2), ((60, 0, 60, 0), [6, 7], 3), ((2000, 0, 2000, 0), [], 1)):
            found = m.search(window)
            self.assertEqual(([r.number for r in found], found.opened), (numbers, opened))

    def test_the_last_of_nine_goes(self) -> None:
        m = Map(12)
        m.batch(nine())
        self.assertEqual((len(m), m.height, m.slots, m.free_slots), (9, 2, 12, 9))
        m.delete(9, (1000, 0, 1010, 10))
        self.assertEqual((len(m), m.height, m.free_slots), (8, 1, 11))
        self.assertEqual([r.number for r in m.records()], [1, 2, 3, 4, 5, 6, 7, 8])

    def test_update(self) -> None:
        m = Map()
        m.insert(7, ZONE)
        m.update(7, ZONE, (20, 0, 30, 10))
        self.assertEqual(m.records(), ((7, (20, 0, 30, 10)),))
        m.update(7, (20, 0, 30, 10), (20, 0, 30, 10))
        self.assertEqual(len(m), 1)


def printed(frames: bytes) -> str:
    """What `dustmap` prints for whole frames: a pool of 128 slots, and a found list of 64."""
    m, at, lines = Map(128), 0, []
    while at < len(frames):
        length, kind = struct.unpack_from("<HH", frames, at)
        words = struct.unpack_from(f"<{(length - 2) // 4}i", frames, at + 4)
        at += 2 + length
        number, rects = (0, words) if kind in dustmap.SEARCHES else (words[0], words[1:])
        answer = m.batch([Request(kind, number, Rect(*rects[:4]), Rect(*(rects[4:] or ZONE)))], places=64)[0]
        lines.append((len([line for line in lines if len(line) == 4]) + 1, answer.number, answer.found, answer.opened))
        lines += [(r.number, *r.rect) for r in answer.records]
    return "".join(" ".join(map(str, line)) + "\n" for line in lines)


class Modes(Case):
    """Searches that list only the records inside the window, or only those that enclose it."""

    def block(self) -> Map:
        """A map of the zones about the block."""
        m = Map(12)
        for number, (_, rect, _) in enumerate(ZONES, 1):
            m.insert(number, rect)
        return m

    def listed(self, mode: str) -> tuple[Record, ...]:
        """What a search of the block lists in that mode."""
        return tuple(Record(number, rect) for number, (_, rect, modes) in enumerate(ZONES, 1) if mode in modes.split())

    def test_each_lists_its_own(self) -> None:
        m = self.block()
        searches = {"meeting": m.search, "inside": m.search_inside, "enclosing": m.search_enclosing}
        opened = {search(BLOCK).opened for search in searches.values()}
        self.assertEqual(len(opened), 1, "opened is the same in every mode")
        for mode, search in searches.items():
            self.assertEqual(search(BLOCK).records, self.listed(mode), mode)
            self.assertEqual(search((500, 500, 501, 501)).records, (), mode)

    def test_in_one_batch(self) -> None:
        m = self.block()
        before = m.words()
        answers = m.batch(request(BLOCK) for request in MODES.values())
        self.assertEqual([a.records for a in answers], [self.listed(mode) for mode in MODES])
        self.assertEqual([(a.number, a.found) for a in answers], [(0, 11), (0, 5), (0, 3)])
        self.assertEqual(m.words(), before, "a search changes nothing")

    def test_all_open_the_nodes_whose_cover_meets_the_window(self) -> None:
        m = Map(12)
        m.batch(nine())
        for window, numbers, opened in (
            ((55, 0, 58, 10), ([6], [], [6]), 2),
            ((60, 0, 60, 0), ([6, 7], [], [6, 7]), 3),
            ((15, 0, 45, 10), ([2, 3, 4, 5], [3, 4], []), 2),
            ((1000, 0, 1010, 10), ([9], [9], [9]), 2),
            ((2000, 0, 2000, 0), ([], [], []), 1),
        ):
            answers = m.batch(request(window) for request in MODES.values())
            self.assertEqual([[r.number for r in a.records] for a in answers], list(numbers), window)
            self.assertEqual({a.opened for a in answers}, {opened}, window)

    def test_a_window_of_floats(self) -> None:
        m = Map()
        m.insert(7, Rect.from_box(10.5, -20.5, 30.5, -5.5))
        self.assertEqual(len(m.search_inside(Rect.from_box(10.25, -20.25, 30.25, -5.25))), 1, "rounded outward, the two are equal")
        self.assertEqual(len(m.search_enclosing(Rect.from_point(30.5, -5.5))), 1)
        self.assertEqual(len(m.search_enclosing(Rect.from_disc(30.5, -5.5, 0))), 0, "a disc goes one millimetre further")

    def test_8_by_what_the_mode_lists(self) -> None:
        m = self.block()
        searches = {"meeting": m.search, "inside": m.search_inside, "enclosing": m.search_enclosing}
        for mode, request in MODES.items():
            count = len(self.listed(mode))
            answer = self.refused_request(8, m, request(BLOCK), places=count - 1)
            self.assertEqual((answer.found, answer.opened), (count, m.search(BLOCK).opened))
            self.assertEqual(self.refused(8, lambda: searches[mode](BLOCK, places=count - 1)).found, count)
            self.assertEqual(len(searches[mode](BLOCK, places=count)), count)

    def test_their_words(self) -> None:
        words = [str(request(ZONE)) for request in MODES.values()]
        self.assertEqual(words, ["search (0, 0, 10, 10)", "search inside (0, 0, 10, 10)", "search enclosing (0, 0, 10, 10)"])
        self.assertIn("search inside (1, 0, 0, 0): 3 bad rectangle", str(self.refused(3, lambda: Map().search_inside((1, 0, 0, 0)))))


class Refusals(Case):
    """Every number, with its words."""

    def test_the_words_are_those_of_the_documents(self) -> None:
        self.assertEqual({n: (m.when, m.effect) for n, m in dustmap.NUMBERS.items() if n != -1}, DOCUMENT)
        self.assertEqual(list(dustmap.NUMBERS), [0, 9, 13, 1, 2, -1, 12, 10, 3, 4, 11, 5, 6, 7, 8], "the order of checks")
        for number, meaning in dustmap.NUMBERS.items():
            self.assertEqual(meaning.number, number)
            self.assertEqual(getattr(dustmap, meaning.name.upper().replace(" ", "_")), number)
            self.assertTrue(meaning.what_to_do)

    def test_1_pool_length_wrong(self) -> None:
        sound = Map(2).words()
        for words in ([], sound[:-1], [*sound, 0], sound[:8], [0] * (8 + 42 * 4097)):
            self.assertIsNone(self.refused(1, lambda words=words: Map.of(words)).request)
        self.refused(1, lambda: Map.of(Map(2).to_bytes()[:-4]))

    def test_2_pool_not_sound(self) -> None:
        m = Map(12)
        m.batch(nine())
        m.insert(10, (5, 0, 6, 1))
        # edition, root, height, records, a zero of the head, a level, a count, a cover, a child, a free slot
        for place in (0, 1, 2, 3, 7, 8, 9, 8 + 84 + 4, 8 + 84 + 6, 8 + 42 * 11 + 41):
            with self.subTest(place=place):
                words = m.words()
                words[place] += 1 if place else 2  # edition 2 would be measured otherwise
                self.refused(2, lambda: Map.of(words))
        self.refused(2, lambda: Map.of([3] * 50))

    def test_9_too_many_requests(self) -> None:
        m = Map()
        before = m.words()
        refusal = self.refused(9, lambda: m.batch([Request.insert(1, ZONE)] * 1025))
        self.assertIsNone(refusal.request, "the call is refused as a whole")
        self.assertEqual(m.words(), before)
        self.assertEqual([a.number for a in m.batch([Request.insert(1, ZONE)] * 1024)], [0] + [6] * 1023)

    def test_no_request(self) -> None:
        m = Map()
        before = m.words()
        for kind in (0, 7, -1, 2**31 - 1, -(2**31)):
            self.refused(-1, lambda kind=kind: m.batch([Request.insert(1, ZONE), Request(kind, 1, Rect(*ZONE))]))
            self.assertEqual(m.words(), before, "not even the good request is done")

    def test_3_bad_rectangle(self) -> None:
        m = Map()
        m.insert(1, (0, 0, MOST, 0))
        for rect in ((0, 0, MOST + 1, 0), (-MOST - 1, 0, 0, 0), (1, 0, 0, 0), (0, 1, 0, 0), (0, 0, 2**31 - 1, 0)):
            self.refused_request(3, m, Request.insert(1, rect))
            self.refused_request(3, m, Request.delete(0, rect))
            self.refused_request(3, m, Request.update(1, (0, 0, MOST, 0), rect))
            for request in MODES.values():
                self.refused_request(3, m, request(rect))
            self.refused(3, lambda rect=rect: m.insert(1, rect))

    def test_4_bad_number(self) -> None:
        m = Map()
        for number in (0, -1, -(2**31)):
            for request in (Request.insert(number, ZONE), Request.delete(number, ZONE), Request.update(number, ZONE, ZONE)):
                self.refused_request(4, m, request)
        self.refused(4, lambda: m.insert(0, ZONE))
        m.insert(2**31 - 1, ZONE)

    def test_5_not_held(self) -> None:
        m = Map()
        m.insert(7, ZONE)
        for request in (Request.delete(7, (0, 0, 10, 11)), Request.delete(8, ZONE), Request.update(8, ZONE, ZONE)):
            self.refused_request(5, m, request)
        self.refused(5, lambda: m.delete(8, ZONE))
        self.refused(5, lambda: m.update(8, ZONE, ZONE))

    def test_6_held(self) -> None:
        m = Map()
        m.insert(7, ZONE)
        m.insert(7, (1, 1, 2, 2))
        self.refused_request(6, m, Request.insert(7, ZONE))
        self.refused_request(6, m, Request.update(7, ZONE, (1, 1, 2, 2)))
        self.refused(6, lambda: m.insert(7, ZONE))

    def test_7_no_slot(self) -> None:
        m = Map(2)
        m.batch(nine()[:8])
        self.refused_request(7, m, nine()[8])
        self.refused(7, lambda: m.insert(9, (1000, 0, 1010, 10)))
        self.assertEqual(len(m), 8)

    def test_8_no_room(self) -> None:
        m = row_of(100, 64)
        answer = self.refused_request(8, m, Request.search((0, 0, 205, 0)), places=20)
        self.assertEqual((answer.found, answer.opened), (21, m.search((0, 0, 205, 0)).opened))
        refusal = self.refused(8, lambda: m.search((0, 0, 205, 0), places=20))
        self.assertEqual((refusal.found, refusal.opened), (21, answer.opened))
        self.assertIn("It finds 21.", str(refusal))
        self.assertEqual(len(m.search((0, 0, 205, 0), places=21)), 21)

    def test_places_are_for_all_the_searches_together(self) -> None:
        m = Map(12)
        m.batch(nine())
        windows = [(55, 0, 58, 10), (60, 0, 60, 0), (60, 0, 60, 0), (2000, 0, 2000, 0), (55, 0, 58, 10)]
        answers = m.batch(map(Request.search, windows), places=4)
        self.assertEqual([(a.number, a.found, len(a.records)) for a in answers], [(0, 1, 1), (0, 2, 2), (8, 2, 0), (0, 0, 0), (0, 1, 1)])

    def test_a_refusal_can_be_sent_on(self) -> None:
        refusal = self.refused(5, lambda: Map().delete(8, ZONE))
        self.assertEqual(str(pickle.loads(pickle.dumps(refusal))), str(refusal))


class Rooms(Case):
    """Whether an insert will fit, told beforehand."""

    def told(self, m: Map, rect: Sequence[int], needed: int, free: int) -> None:
        """That this is what the map tells of an insert, and that telling changes nothing."""
        before = m.words()
        self.assertEqual(m.room(rect), Room(needed, free))
        self.assertEqual((m.room(rect).fits, bool(m.room(rect))), (needed <= free, needed <= free))
        self.assertEqual(m.words(), before)

    def test_a_leaf_that_is_not_full_needs_none(self) -> None:
        m = Map(1)
        for request in nine()[:8]:
            self.told(m, request.first, 0, 0)
            m.insert(request.number, request.first)
        self.told(m, nine()[8].first, 2, 0)

    def test_a_full_root_needs_two(self) -> None:
        for slots in (1, 2, 3, 12, 4096):
            m = Map(slots)
            m.batch(nine()[:8])
            self.told(m, nine()[8].first, 2, slots - 1)
            answer = m.batch([nine()[8]])[0]
            self.assertEqual((answer.number, m.free_slots), (7, slots - 1) if slots < 3 else (0, slots - 3))

    def test_the_chosen_leaf_decides(self) -> None:
        m = Map(4)
        m.batch(nine())
        west, east = (5, 5, 5, 5), (500, 5, 500, 5)  # within the cover of slot 1, which has six records, and of slot 2, which has three
        for number, needed in ((10, 0), (11, 0), (12, 1)):
            self.told(m, west, needed, 1)
            self.told(m, east, 0, 1)
            m.insert(number, west)
        self.assertEqual(m.free_slots, 0)

    def test_a_batch_that_takes_the_slot_first(self) -> None:
        m = Map(4)
        m.batch(nine())
        west, east = (5, 5, 5, 5), (500, 5, 500, 5)
        m.batch([Request.insert(20 + k, west) for k in range(2)] + [Request.insert(30 + k, east) for k in range(5)])
        self.told(m, west, 1, 1)
        self.told(m, east, 1, 1)
        answers = m.batch([Request.insert(40, west), Request.insert(41, east)])
        self.assertEqual([a.number for a in answers], [0, 7], "each fits alone, and not both")
        self.told(m, east, 1, 0)
        m.delete(30, east)
        self.told(m, east, 0, 0)

    def test_a_pair_that_is_held(self) -> None:
        """What is told is of slots alone: 6 comes before 7."""
        m = Map(1)
        m.batch(nine()[:8])
        self.told(m, nine()[0].first, 2, 0)
        self.refused_request(6, m, nine()[0])

    def test_a_box_of_floats(self) -> None:
        self.told(Map(3), Rect.from_box(-2.5, 0.25, 4.0, 8.75), 0, 2)

    def test_3_bad_rectangle(self) -> None:
        m = Map()
        for rect in ((0, 0, MOST + 1, 0), (-MOST - 1, 0, 0, 0), (1, 0, 0, 0), (0, 1, 0, 0), (0, 0, 2**31 - 1, 0), (-(2**31),) * 4):
            self.assertIsNone(self.refused(3, lambda rect=rect: m.room(rect)).request)
        self.told(m, dustmap.WHOLE_SITE, 0, 127)

    def test_a_refusal_writes_nothing(self) -> None:
        """The call itself, 1 before 2 before 3; a pool of `Map` is sound, so that it is never refused 1 or 2."""
        library = dustmap._library(str(dustmap.library_path()))
        sound, unsound, good, bad = Map(2).words(), [3] * len(Map(2).words()), ZONE, (1, 0, 0, 0)
        cases: list[tuple[int, list[int], tuple[int, ...]]] = [(1, [], good), (1, sound[1:], good), (1, sound[1:], bad), (1, unsound[1:], bad)]
        cases += [(1, [0] * (8 + 42 * 4097), good), (2, unsound, good), (2, unsound, bad), (3, sound, bad), (0, sound, good)]
        for number, pool, rect in cases:
            words, four = (ctypes.c_int32 * len(pool))(*pool), (ctypes.c_int32 * 4)(*rect)
            slots = (ctypes.c_uint32 * 2)(77, 88)
            self.assertEqual(library.dustmap_room(words, len(pool), four, slots), number)
            self.assertEqual(list(slots), [77, 88] if number else [0, 1])
            self.assertEqual((list(words), tuple(four)), (pool, rect))


def file_of(records: list[tuple[int, ...]], edition: int = 1, count: Optional[int] = None) -> bytes:
    """A file as document 02 has it, packed here; with another edition or count where that is said. A record of six words has an owner."""
    head = struct.pack("<HHii", 10, 16, edition, len(records) if count is None else count)
    frames = (struct.pack(f"<HH{len(r)}i", 2 + 4 * len(r), {5: 17, 6: 19}[len(r)], *r) for r in records)
    return head + b"".join(frames) + struct.pack("<HH", 2, 18)


class Files(Case):
    """A map that is carried between offices."""

    def pit(self) -> Map:
        """Records that were not inserted in the order of the file, one number with two rectangles, one rectangle with two numbers."""
        m = Map(12)
        for number, rect in ((9, ZONE), (2, (5, 5, 6, 6)), (7, ZONE), (2, (-5, 0, 9, 0)), (7, (0, 0, 10, 9)), (2**31 - 1, (-MOST, -MOST, MOST, MOST))):
            m.insert(number, rect)
        return m

    def refused_file(self, number: int, file: bytes, slots: int = 12) -> None:
        """That the file is refused with that number, and leaves the map as it was."""
        m = self.pit() if slots == 12 else Map(slots)
        before = m.words()
        self.assertIsNone(self.refused(number, lambda: m.read(file)).request)
        self.assertEqual(m.words(), before, "a refused read leaves the pool")
        self.assertEqual(list(m._work), before, "and its workspace equal to it")

    def test_the_bytes(self) -> None:
        records = [(2, -5, 0, 9, 0), (2, 5, 5, 6, 6), (7, 0, 0, 10, 9), (7, *ZONE), (9, *ZONE), (2**31 - 1, -MOST, -MOST, MOST, MOST)]
        self.assertEqual(self.pit().write(), file_of(records))
        self.assertEqual(Map(1).write(), bytes.fromhex("0a0010000100000000000000" + "02001200"))
        self.assertEqual((ROOT / "examples" / "carry.map").read_bytes()[:12], struct.pack("<HHii", 10, 16, 1, 9))

    def test_there_and_back(self) -> None:
        for m in (self.pit(), Map(3), row_of(500, 300)):
            file, before = m.write(), m.words()
            for slots in {m.slots, len(m) // 2 or 1, 700}:  # N slots take every file of up to 2N + 1 records
                there = row_of(5, slots)
                there.read(file)
                self.assertEqual((there.records(), there.slots), (m.records(), slots), "what was there before is gone")
                self.assertEqual(there.words(), Map.of(there.words()).words(), "it is sound")
                self.assertEqual(list(there._work), there.words())
                self.assertEqual(there.write(), file, "writing again gives the same bytes")
            self.assertEqual(m.words(), before, "a write changes nothing")

    def test_a_read_inserts_in_file_order(self) -> None:
        file, there, one_by_one = row_of(200, 100).write(), Map(100), Map(100)
        there.read(file)
        for record in there.records():
            one_by_one.insert(*record)
        self.assertEqual(there.words(), one_by_one.words())

    def test_a_pair_held_twice_is_written_once(self) -> None:
        words = self.pit().words()
        words[10 + 5 : 10 + 10] = words[10:15]  # the second entry of the leaf as the first
        m = Map.of(words)
        records = sorted({(r.number, *r.rect) for r in m.records()})
        self.assertEqual((len(m), len(records)), (6, 5))
        self.assertEqual(m.write(), file_of(records))

    def test_other_kinds_of_bytes(self) -> None:
        file = self.pit().write()
        for given in (bytearray(file), memoryview(file), memoryview(array.array("i", file))):
            there = Map(12)
            there.read(given)
            self.assertEqual(there.write(), file)
        for wrong in (None, "office.map", list(file), 7, io.BytesIO(file), ROOT):
            self.assertRaisesRegex(TypeError, "is not the bytes of a file", Map(12).read, wrong)

    def test_10_cut_at_every_byte(self) -> None:
        file = self.pit().write()
        for length in range(len(file)):
            self.refused_file(10, file[:length])

    def test_10_bad_frame(self) -> None:
        one, two = (1, *ZONE), (2, *ZONE)
        good = file_of([one, two])
        Map(12).read(good)
        wrong = {
            "a byte after": good + b"\0",
            "a second file after": good + good,
            "edition 0": file_of([one, two], edition=0),
            "edition 2": file_of([one, two], edition=2),
            "a count below 0": file_of([], count=-1),
            "a count too small": file_of([one, two], count=1),
            "a count too large": file_of([one, two], count=3),
            "the largest count": file_of([one, two], count=2**31 - 1),
            "no head": good[12:],
            "two heads": good[:12] + good,
            "an insert in the place of a record": good.replace(b"\x16\0\x11\0", b"\x16\0\x01\0", 1),
            "frames of dustmap": struct.pack("<HH5i", 22, 1, *one),
            "a length too large by one": good[:12] + b"\x17" + good[13:],
            "an end with a word": good[:-4] + struct.pack("<HHi", 6, 18, 0),
            "bytes the other way round": struct.pack(">HHii", 10, 16, 1, 0) + struct.pack(">HH", 2, 18),
        }
        for what, file in wrong.items():
            with self.subTest(what):
                self.refused_file(10, file)

    def test_3_4_and_11_of_a_record(self) -> None:
        good = (7, *ZONE)
        wrong = [
            (3, (0, 1, 0, 0, 0)),
            (3, (8, 0, 1, 0, 0)),
            (3, (8, 0, 0, MOST + 1, 0)),
            (3, (8, -MOST - 1, 0, 0, 0)),
            (4, (0, *ZONE)),
            (4, (-(2**31), *ZONE)),
            (11, good),
            (11, (6, *ZONE)),
            (11, (7, 0, 0, 10, 9)),
            (11, (7, -1, 0, 10, 10)),
        ]
        for number, record in wrong:
            with self.subTest(record):
                self.refused_file(number, file_of([good, record, (9, *ZONE)]))
        for number, record in wrong[:6]:
            self.refused_file(number, file_of([record]))

    def test_7_no_slot(self) -> None:
        for slots in (1, 2, 5):
            most = 2 * slots + 1
            Map(slots).read(row_of(most, slots).write())
            self.refused_file(7, row_of(8 * slots + 1, 100).write(), slots)
        self.refused_file(7, row_of(9, 12).write(), slots=1)

    def test_the_first_frame_at_fault_decides(self) -> None:
        good, bad = [(k, *ZONE) for k in range(1, 10)], (1, 1, 0, 0, 0)
        self.refused_file(7, file_of([*good, bad]), slots=1)
        self.refused_file(7, file_of(good)[:-1], slots=1)
        self.refused_file(3, file_of([*good[:8], bad, good[8]]), slots=1)
        self.refused_file(3, file_of([good[0], bad])[:-1])
        self.refused_file(11, file_of([good[0], good[0]], count=3))
        self.refused_file(10, file_of([bad], edition=2))

    def test_what_is_lent(self) -> None:
        """The calls themselves, with lists of wrong lengths, a pool that is not sound, and a buffer that is a byte short."""
        library, file = dustmap._library(str(dustmap.library_path())), self.pit().write()
        sound, unsound = self.pit().words(), [3] * len(self.pit().words())
        cases = [(1, sound[1:], len(file)), (1, unsound[1:], 0), (1, [], 0), (2, unsound, 0), (8, sound, len(file) - 1), (8, sound, 0)]
        cases += [(0, sound, len(file)), (0, sound, len(file) + 9)]
        for number, pool, room in cases:
            buffer, length = (ctypes.c_uint8 * room)(*[0x55] * room), ctypes.c_uint64(77)
            words = (ctypes.c_int32 * len(pool))(*pool)
            self.assertEqual(library.dustmap_write(words, len(pool), buffer, room, ctypes.byref(length)), number)
            written = len(file) if number == 0 else 0
            self.assertEqual(length.value, written)
            self.assertEqual(bytes(buffer), file[:written] + b"\x55" * (room - written), "bytes after the file stay")
            self.assertEqual(list(words), pool)
        for pool, room in ((sound, len(sound) - 42), (sound, len(sound) + 1), (unsound[1:], len(unsound) - 1), ([], 0)):
            words, work = (ctypes.c_int32 * len(pool))(*pool), (ctypes.c_int32 * room)(*[5] * room)
            self.assertEqual(library.dustmap_read(words, len(pool), work, room, file, len(file)), 1)
            self.assertEqual((list(words), list(work)), (pool, [5] * room), "refused 1, nothing is written")
        words, work = (ctypes.c_int32 * len(unsound))(*unsound), (ctypes.c_int32 * len(unsound))()
        self.assertEqual(library.dustmap_read(words, len(unsound), work, len(unsound), file, len(file) - 1), 10)
        self.assertEqual((list(words), list(work)), (unsound, unsound), "any words may be in the pool")
        self.assertEqual(library.dustmap_read(words, len(unsound), work, len(unsound), file, len(file)), 0)
        self.assertEqual(list(words), list(work))
        self.assertEqual(Map.of(list(words)).write(), file)

    def test_the_largest(self) -> None:
        m, there = row_of(8193, dustmap.MOST_SLOTS), Map(dustmap.MOST_SLOTS)
        there.read(m.write())
        self.assertEqual(there.write(), file_of([(k + 1, 10 * k, 0, 10 * k + 5, 5) for k in range(8193)]))


class Owners(Case):
    """A map of edition 2, which two owners share."""

    def test_as_a_user_writes_it(self) -> None:
        m = Map(slots=128, edition=2)
        m.insert(7, ZONE)
        m.insert(7, ZONE, owner=2)
        m.update(7, ZONE, (5, 5, 6, 6), owner=2)
        self.assertEqual((m.records(), m.records(owner=2)), (((7, ZONE),), ((7, (5, 5, 6, 6)),)))
        m.delete(7, (5, 5, 6, 6), owner=2)
        self.assertEqual((m.search(ZONE).records, len(m.search(ZONE, owner=2))), (((7, ZONE),), 0))
        self.assertEqual(repr(m), "<Map of edition 2: 1 record, height 1, 127 of 128 slots free>")

    def test_a_pair_is_held_per_owner(self) -> None:
        m = Map(3, edition=2)
        for owner in (1, 2):
            self.refused(5, lambda: m.delete(7, ZONE, owner=owner))
            self.refused(5, lambda: m.update(7, ZONE, ZONE, owner=owner))
            m.insert(7, ZONE, owner=owner)
            self.refused(6, lambda: m.insert(7, ZONE, owner=owner))
        self.assertEqual(len(m), 2, "the records of both")

    def test_searches_of_every_mode(self) -> None:
        m = Map(12, edition=2)
        for number, (_, rect, _) in enumerate(ZONES, 1):
            m.insert(number, rect, owner=1 + number % 2)
        for owner in (1, 2):
            searches = {"meeting": m.search, "inside": m.search_inside, "enclosing": m.search_enclosing}
            for mode, search in searches.items():
                due = [n for n, (_, _, modes) in enumerate(ZONES, 1) if mode in modes.split() and 1 + n % 2 == owner]
                found = search(BLOCK, owner=owner)
                self.assertEqual(([r.number for r in found], found.opened), (due, 0), "opened is reported as 0")
                refusal = self.refused(8, lambda: search(BLOCK, places=len(due) - 1, owner=owner))
                self.assertEqual((refusal.found, refusal.opened), (len(due), 0), "beside 8 too")

    def test_a_found_list_that_grows(self) -> None:
        m = Map(128, edition=2)
        for owner in (2, 1):
            answers = m.batch([Request.insert(k, (k, owner, k, owner)) for k in range(1, 201)] + [Request.search(dustmap.WHOLE_SITE)], owner=owner)
            self.assertEqual([a.number for a in answers], [0] * 201)
            self.assertEqual([r.number for r in answers[-1].records], list(range(1, 201)))
        self.assertEqual(len(m), 400)

    def test_edition_1_serves_both_alike(self) -> None:
        m = Map(12)
        m.batch(nine(), owner=2)
        self.refused(6, lambda: m.insert(1, (0, 0, 10, 10)))
        self.assertEqual(m.records(owner=2), m.records(owner=1))
        self.assertEqual(m.search((60, 0, 60, 0), owner=2).opened, 3, "and opened is reported")
        m.delete(9, (1000, 0, 1010, 10), owner=1)
        self.assertEqual(len(m.records(owner=2)), 8)

    def test_13_bad_owner(self) -> None:
        for edition in Edition:
            m = Map(3, edition=edition)
            m.insert(7, ZONE)
            before = m.words()
            for owner in (0, 3, -1, 2**31 - 1, -(2**31)):
                asks: list[Callable[..., Any]] = [lambda **o: m.insert(8, ZONE, **o), lambda **o: m.delete(7, ZONE, **o), m.records]
                asks += [lambda **o: m.update(7, ZONE, BLOCK, **o), lambda **o: m.batch([], **o), lambda **o: m.batch([Request(9, 1, BLOCK)], **o)]
                asks += [lambda search=search, **o: search(ZONE, **o) for search in (m.search, m.search_inside, m.search_enclosing)]
                for ask in asks:
                    self.assertIsNone(self.refused(13, lambda: ask(owner=owner)).request, "the call is refused")
                self.refused(9, lambda: m.batch([Request.insert(8, ZONE)] * 1025, owner=owner))
            self.assertEqual(m.words(), before)

    def test_what_is_no_owner_or_edition(self) -> None:
        m = Map(3, edition=2)
        for wrong, error in ((None, TypeError), ("2", TypeError), (2.0, TypeError), (True, TypeError), (2**31, ValueError), (2**32 + 1, ValueError)):
            self.assertRaisesRegex(error, "^owner: ", lambda: m.insert(7, ZONE, owner=wrong))
            self.assertRaisesRegex(error, "^edition: ", lambda: Map(3, edition=wrong))
        for number in (0, 3, -1):
            self.assertRaisesRegex(ValueError, f"^edition: {number} is none of 1, 2$", lambda: Map(3, edition=number))
        self.assertRaises(TypeError, lambda: m.insert(7, ZONE, 2))  # an owner is named, so that no other number is taken for one
        self.assertEqual(len(m), 0)

    def test_its_words(self) -> None:
        for slots in (1, 21, 4096):
            m = Map(slots, edition=2)
            self.assertEqual((m.edition, m.slots, m.free_slots, len(m.words())), (Edition.TWO, slots, slots - 1, 8 + 50 * slots))
            self.assertEqual(m.words()[:9], [2, 1, 1, 0, 0, 0, 0, 0, 1])
        m.insert(7, ZONE, owner=2)
        self.assertEqual(m.words()[8:16], [1, 1, 0, 0, 10, 10, 7, 2], "the owner is a record's sixth word")
        for copied in (copy.copy(m), pickle.loads(pickle.dumps(m)), Map.of(m.words()), Map.of(m.to_bytes())):
            self.assertEqual((copied.words(), copied.records(owner=2), copied.edition), (m.words(), ((7, ZONE),), Edition.TWO))
        self.assertEqual((Map(3).edition, Map(3, edition=Edition.TWO).edition), (Edition.ONE, Edition.TWO))

    def test_1_and_2_of_words(self) -> None:
        m = Map(3, edition=2)
        for request in nine():
            m.insert(request.number, request.first, owner=1 + request.number % 2)
        words = m.words()
        self.refused(1, lambda: Map.of([1, *words[1:]]))
        self.refused(1, lambda: Map.of(words[:-8]))
        self.refused(1, lambda: Map.of([2, *Map(3).words()[1:]]))
        first, unused, inner = 8 + 2 + 5, 8 + 2 + 6 * 7 + 5, 8 + 100 + 2 + 5
        for place, word in ((first, 0), (first, 3), (first, -1), (unused, 1), (inner, 1), (0, 1)):
            wrong = [*words[:place], word, *words[place + 1 :]]
            self.refused(2 if place else 1, lambda: Map.of(wrong))

    def test_the_slots_are_shared(self) -> None:
        m = Map(1, edition=2)
        for request in nine()[:8]:
            self.assertEqual(m.room(request.first), Room(0, 0))
            m.insert(request.number, request.first, owner=2)
        self.assertEqual((m.records(), m.room(ZONE)), ((), Room(2, 0)))
        self.refused(7, lambda: m.insert(9, ZONE))
        m.delete(8, nine()[7].first, owner=2)
        m.insert(9, ZONE)

    def test_an_exception_leaves_the_map_as_it_was(self) -> None:
        m = Map(3, edition=2)
        before = m.words()
        with mock.patch.object(Map, "_answer", side_effect=KeyboardInterrupt), self.assertRaises(KeyboardInterrupt):
            m.insert(7, ZONE, owner=2)
        self.assertEqual(m.words(), before)

    def test_what_is_told(self) -> None:
        """The calls themselves, told what there is none of: nothing is written."""
        library, file = dustmap._library(str(dustmap.library_path())), Map(1, edition=2).write()
        cases = [(-1, 58, 3, 0), (-1, 58, 2, 99), (-1, 7, 0, 0), (1, 58, 1, 0), (1, 50, 2, 0), (0, 58, 2, 0), (0, 50, 1, 0)]
        for number, length, edition, rule in cases:
            pool, work = (ctypes.c_int32 * length)(*[6] * length), (ctypes.c_int32 * length)(*[7] * length)
            given = library.dustmap_read_as(pool, length, work, length, file, len(file), edition, rule)
            self.assertEqual(given, 10 if number == 0 and edition == 1 else number)
            if number:
                self.assertEqual((set(pool), set(work)), ({6}, {7}))
            self.assertEqual(library.dustmap_blank_as(pool, length, edition, rule), number)
            self.assertEqual(list(pool), [6] * length if number else Map(1, edition=edition).words())
        pool, work = ((ctypes.c_int32 * 58)(*Map(1, edition=2).words()) for _ in range(2))
        for number, owner in ((13, 0), (13, 3), (0, 1), (0, 2)):
            self.assertEqual(library.dustmap_call_as(pool, 58, work, 58, b"", 0, b"", 0, b"", 0, owner), number)


class OwnersFiles(Case):
    """Files of edition 2: "kind 19 (owner, then as 17), ordered by owner first"."""

    RECORDS = [(1, 2, 5, 5, 6, 6), (1, 9, *ZONE), (2, 1, *ZONE), (2, 2, -5, 0, 9, 0), (2, 2, 5, 5, 6, 6), (2, 2**31 - 1, -MOST, -MOST, MOST, MOST)]

    def shared(self, slots: int = 12) -> Map:
        """The records, inserted in another order than that of the file."""
        m = Map(slots, edition=2)
        for owner, number, *rect in reversed(self.RECORDS):
            m.insert(number, rect, owner=owner)
        return m

    def refused_file(self, number: int, file: bytes, slots: int = 12) -> None:
        """That the file is refused with that number, and leaves the map as it was."""
        m = self.shared() if slots == 12 else Map(slots, edition=2)
        before = m.words()
        self.assertIsNone(self.refused(number, lambda: m.read(file)).request)
        self.assertEqual((m.words(), list(m._work)), (before, before), "a refused read leaves the pool, and its workspace equal to it")

    def test_there_and_back(self) -> None:
        m = self.shared()
        file = m.write()
        self.assertEqual(file, file_of(self.RECORDS, edition=2))
        self.assertEqual(Map(1, edition=2).write(), bytes.fromhex("0a0010000200000000000000" + "02001200"))
        for slots in (3, 12, 700):
            there = Map(slots, edition=2)
            there.insert(77, ZONE, owner=2)
            there.read(file)
            self.assertEqual((there.records(), there.records(owner=2)), (m.records(), m.records(owner=2)))
            self.assertEqual((there.write(), there.slots, list(there._work)), (file, slots, there.words()))
        one_by_one = Map(12, edition=2)
        for owner, number, *rect in self.RECORDS:
            one_by_one.insert(number, rect, owner=owner)
        m.read(file)
        self.assertEqual(m.words(), one_by_one.words(), "a read inserts in file order, each for its owner")

    def test_10_of_another_edition(self) -> None:
        plain = [record[1:] for record in self.RECORDS[:2]]
        for file in (file_of(plain), file_of([]), file_of(plain, edition=2), file_of(self.RECORDS), file_of(self.RECORDS, edition=3)):
            self.refused_file(10, file)
        for file in (file_of(self.RECORDS, edition=2), file_of([], edition=2), file_of(self.RECORDS)):
            self.refused(10, lambda file=file: Map(12).read(file))

    def test_10_cut_at_every_byte(self) -> None:
        file = file_of(self.RECORDS, edition=2)
        for length in range(len(file)):
            self.refused_file(10, file[:length])
        self.refused_file(10, file + b"\0")

    def test_3_4_13_and_11_of_a_record(self) -> None:
        good = (1, 7, *ZONE)
        wrong = [(3, (3, 0, 1, 0, 0, 0)), (4, (3, 0, *ZONE)), (13, (0, 7, *ZONE)), (13, (3, 8, *ZONE)), (13, (-(2**31), 8, *ZONE))]
        wrong += [(11, good), (11, (1, 6, *ZONE)), (11, (1, 7, 0, 0, 10, 9))]
        for number, record in wrong:
            with self.subTest(record):
                self.refused_file(number, file_of([good, record, (2, 9, *ZONE)], edition=2))
        self.refused_file(11, file_of([(2, 7, *ZONE), (1, 9, *ZONE)], edition=2))
        Map(1, edition=2).read(file_of([(1, 9, *ZONE), (2, 7, *ZONE)], edition=2))

    def test_7_no_slot(self) -> None:
        nine_of_two = [(1 + k // 5, k, *ZONE) for k in range(1, 10)]
        self.refused_file(7, file_of(nine_of_two, edition=2)[:-1], slots=1)
        self.refused_file(13, file_of([*nine_of_two[:8], (3, 9, *ZONE)], edition=2), slots=1)
        Map(4, edition=2).read(file_of(nine_of_two, edition=2))


NO_NUMBERS = (math.nan, math.inf, -math.inf)
BEYOND = math.nextafter(MOST, math.inf)


class Survey(Case):
    """Rectangles that come as doubles."""

    def test_what_they_become(self) -> None:
        self.assertEqual(Rect.from_box(0.25, 1.75, 2.25, 3.75), Rect(0, 1, 3, 4))
        self.assertEqual(Rect.from_box(-3.75, -2.25, -1.75, -0.25), (-4, -3, -1, 0))
        self.assertEqual(Rect.from_box(-0.0, -0.0, 5e-324, -0.0), (0, 0, 1, 0), "minus zero is 0")
        self.assertEqual(Rect.from_box(-MOST, -7, MOST, 8), (-MOST, -7, MOST, 8), "whole coordinates are unchanged")
        self.assertEqual(Rect.from_point(5.5, -6.5), (5, -7, 6, -6))
        self.assertEqual(Rect.from_point(5, -6), (5, -6, 5, -6))
        self.assertEqual(Rect.from_disc(100, -50, 10), (89, -61, 111, -39))
        self.assertEqual(Rect.from_disc(x=0.5, y=20.25, radius=1), (-2, 18, 3, 23))
        self.assertEqual(Rect.from_disc(3, 4, -0.0), (2, 3, 4, 5), "a radius of minus zero is not negative")
        self.assertEqual(Rect.from_disc(0, 0, MOST - 1), (-MOST, -MOST, MOST, MOST))
        self.assertIsInstance(Rect.from_point(1, 2), Rect)

    def test_as_dispatch_uses_them(self) -> None:
        m = Map()
        m.insert(7, Rect.from_box(10.5, -20.5, 30.5, -5.5))
        held = ((7, (10, -21, 31, -5)),)
        self.assertEqual(m.records(), held)
        for window in (Rect.from_point(31.5, -5), Rect.from_box(-9, -40, 9.5, 40), Rect.from_disc(20, 5, 9)):
            self.assertEqual(m.search(window).records, held)
        for window in (Rect.from_point(32, -5), Rect.from_box(-9, -40, 9, 40), Rect.from_disc(20, 5, 8)):
            self.assertFalse(m.search(window))

    def bad(self) -> list[tuple[str, tuple[float, ...]]]:
        """Calls that are refused, with what they are given: each cause of 12 in each place."""
        calls = [("box", (0.75, 0, 0.25, 1)), ("box", (0, 0.75, 1, 0.25)), ("disc", (0, 0, -5e-324)), ("disc", (0, 0, MOST))]
        for name, good in (("box", (1, 2, 3, 4)), ("point", (1, 2)), ("disc", (1, 2, 3))):
            calls += [(name, (*good[:k], wrong, *good[k + 1 :])) for k in range(len(good)) for wrong in (*NO_NUMBERS, BEYOND, -BEYOND, 2**60)]
        return calls + [("disc", centre) for centre in ((MOST, 0, 0), (-MOST, 0, 0), (0, MOST, 0), (0, -MOST, 0))]

    def test_12_bad_survey(self) -> None:
        for name, given in self.bad():
            with self.subTest(name, given=given):
                refusal = self.refused(12, lambda name=name, given=given: getattr(Rect, f"from_{name}")(*given))
                self.assertIsNone(refusal.request, "there is no request yet")

    def test_a_refusal_writes_nothing(self) -> None:
        library = dustmap._library(str(dustmap.library_path()))
        before = [2**31 - 1, -(2**31), MOST + 1, -MOST - 1]  # no coordinates of any rectangle
        for name, given in self.bad():
            words = (ctypes.c_int32 * 4)(*before)
            self.assertEqual(getattr(library, f"dustmap_{name}")(*given, words), 12)
            self.assertEqual(list(words), before, (name, given))

    def test_what_is_no_double(self) -> None:
        wrong = [True, "1", b"1", None, 1j, (1,), Decimal(1), Fraction(1, 2)]
        for value, error in [*((value, TypeError) for value in wrong), (10**400, ValueError), (-(10**400), ValueError)]:
            for ask in (lambda v: Rect.from_box(0, 0, 1, v), lambda v: Rect.from_box(v, 0, 1, 1), lambda v: Rect.from_point(0, v)):
                self.assertRaises(error, ask, value)
            self.assertRaisesRegex(error, "^radius: ", Rect.from_disc, 0, 0, value)
        self.assertRaisesRegex(TypeError, "low y: 'a' is neither a float nor a whole number", Rect.from_box, 0, "a", 1, 1)

    def test_against_exact_fractions(self) -> None:
        dice, met = random.Random(5), set()
        for _ in range(4000):
            doubles = [double(dice) for _ in range(4)]
            low_x, low_y, high_x, high_y = doubles if dice.random() < 0.3 else spread(doubles)
            met.add(("box", self.made(Rect.from_box, (low_x, low_y, high_x, high_y), box_due(low_x, low_y, high_x, high_y))))
            x, y, radius = low_x, low_y, high_x if dice.random() < 0.3 else abs(high_x)
            met.add(("disc", self.made(Rect.from_disc, (x, y, radius), disc_due(x, y, radius))))
            met.add(("point", self.made(Rect.from_point, (x, y), box_due(x, y, x, y))))
        self.assertEqual(len(met), 6, "each is met accepted and refused")

    def made(self, make: Callable[..., Rect], given: tuple[float, ...], due: Optional[Rect]) -> bool:
        """That what is made of these doubles is what is due, or that they are refused where nothing is; whether they are accepted."""
        if due is None:
            self.refused(12, lambda: make(*given))
        else:
            self.assertEqual(make(*given), due, given)
        return due is not None


def double(dice: random.Random) -> float:
    """Any double: beside a whole number, of any size, at the edge of the range, or no number at all."""
    whole = dice.choice([dice.randint(-20, 20), dice.randint(-MOST, MOST)])
    beside = [math.nextafter(whole, math.inf), math.nextafter(whole, -math.inf), whole + dice.choice([0.0, 0.25, 0.5, 0.75])]
    sized = dice.choice([-1, 1]) * math.ldexp(1 + dice.random(), dice.randint(-1074, 40))
    edge = dice.choice([0.0, -0.0, MOST, -MOST, BEYOND, -BEYOND, MOST - 1, 1 - MOST, *NO_NUMBERS])
    return dice.choices([dice.choice(beside), dice.uniform(-MOST, MOST), sized, edge], [50, 30, 15, 5])[0]


def spread(doubles: list[float]) -> tuple[float, ...]:
    """The same numbers with the smaller of each axis first."""
    a, b, c, d = doubles
    return min(a, c), min(b, d), max(a, c), max(b, d)


def in_range(rect: Rect) -> Optional[Rect]:
    return rect if all(abs(side) <= MOST for side in rect) else None


def box_due(low_x: float, low_y: float, high_x: float, high_y: float) -> Optional[Rect]:
    """Document 02's rectangle for a box, or None for 12. A float's floor and ceiling are exact in Python."""
    sides = (low_x, low_y, high_x, high_y)
    if not all(map(math.isfinite, sides)) or low_x > high_x or low_y > high_y:
        return None
    return in_range(Rect(math.floor(low_x), math.floor(low_y), math.ceil(high_x), math.ceil(high_y)))


def disc_due(x: float, y: float, radius: float) -> Optional[Rect]:
    """Document 02's window for a disc, or None for 12; and that it holds the exact box of the disc and is less than 3 mm beyond it."""
    if not all(math.isfinite(v) and abs(v) <= MOST for v in (x, y, radius)) or radius < 0:
        return None
    lows, highs = [math.floor(c - radius) - 1 for c in (x, y)], [math.ceil(c + radius) + 1 for c in (x, y)]
    for centre, low, high in zip((x, y), lows, highs):
        assert 0 <= Fraction(centre) - Fraction(radius) - low < 3 and 0 <= high - Fraction(centre) - Fraction(radius) < 3
    return in_range(Rect(*lows, *highs))


class Growing(Case):
    """A found list that grows."""

    def test_a_search_of_everything(self) -> None:
        m = row_of(300, 128)
        self.assertEqual([r.number for r in m.records()], list(range(1, 301)))
        self.assertEqual(len(m), 300)

    def test_a_batch_that_also_changes_the_map(self) -> None:
        """The batch is done again when its list has grown: each change is still made once, and each search sees the map of its moment."""
        whole = Request.search(dustmap.WHOLE_SITE)
        new = Request.insert(301, (7, 7, 8, 8))
        requests = [whole, Request.delete(1, (0, 0, 5, 5)), whole, new, new, whole]
        m, one_by_one = row_of(300, 128), row_of(300, 128)
        answers = m.batch(requests)
        self.assertEqual([a.number for a in answers], [0, 0, 0, 0, 6, 0])
        self.assertEqual([len(a.records) for a in answers], [300, 0, 299, 0, 0, 300])
        self.assertEqual(answers, [one_by_one.batch([request])[0] for request in requests])
        self.assertEqual(m.words(), one_by_one.words())

    def test_a_batch_of_every_mode(self) -> None:
        m = row_of(300, 128)
        m.insert(301, dustmap.WHOLE_SITE)
        answers = m.batch(request(window) for request in MODES.values() for window in (dustmap.WHOLE_SITE, (0, 0, 5, 5)))
        numbers = [[r.number for r in a.records] for a in answers]
        everything = list(range(1, 302))
        self.assertEqual(numbers, [everything, [1, 301], everything, [1], [301], [1, 301]])

    def test_the_largest_map(self) -> None:
        m = row_of(16_000, dustmap.MOST_SLOTS)
        self.assertEqual([r.number for r in m.records()], list(range(1, 16_001)))
        self.assertEqual(Map.of(m.words()).words(), m.words())


class Pools(Case):
    """Words that come from outside, and go there."""

    def test_of_words_and_of_bytes(self) -> None:
        m = row_of(50, 40)
        words = m.words()
        given = (words, tuple(words), array.array("i", words), m.to_bytes(), bytearray(m.to_bytes()), memoryview(array.array("i", words)))
        for pool in given:
            self.assertEqual(Map.of(pool).words(), words)
            self.assertEqual(Map.of(pool).records(), m.records())
        self.assertEqual(m.to_bytes()[:8], b"\1\0\0\0" + struct.pack("<i", words[1]))

    def test_nothing_is_shared(self) -> None:
        m = Map(3)
        words = m.words()
        words[0] = 9
        other = Map.of(m.words())
        other.insert(7, ZONE)
        self.assertEqual((len(m), len(other), m.words()[0]), (0, 1, 1))
        for copied in (copy.copy(other), copy.deepcopy(other), pickle.loads(pickle.dumps(other))):
            self.assertEqual(copied.words(), other.words())
            copied.delete(7, ZONE)
        self.assertEqual(len(other), 1)

    def test_slots(self) -> None:
        for slots in (1, 128, 4096):
            self.assertEqual((Map(slots).slots, len(Map(slots).words())), (slots, 8 + 42 * slots))
        self.assertEqual(repr(Map(3)), "<Map: 0 records, height 1, 2 of 3 slots free>")
        for slots in (0, -1, 4097, 2**40):
            self.assertRaisesRegex(ValueError, "slots", Map, slots)

    def test_an_exception_leaves_the_map_as_it_was(self) -> None:
        m = Map()
        before = m.words()
        for error in (MemoryError, KeyboardInterrupt):
            with mock.patch.object(Map, "_answer", side_effect=error), self.assertRaises(error):
                m.insert(7, ZONE)
            self.assertEqual(m.words(), before)
        m.insert(7, ZONE)

    def test_threads(self) -> None:
        m = Map(512)

        def work(first: int) -> None:
            """Inserts of its own numbers, and searches between them."""
            for k in range(100):
                m.insert(first + k, (first, k, first + 1, k + 1))
                m.search((first, k, first, k))

        threads = [threading.Thread(target=work, args=(1000 * t,)) for t in range(1, 5)]
        for thread in threads:
            thread.start()
        for thread in threads:
            thread.join()
        self.assertEqual([r.number for r in m.records()], [1000 * t + k for t in range(1, 5) for k in range(100)])


class WrongTypes(Case):
    """What cannot be asked is an error before anything is done."""

    def test_numbers(self) -> None:
        m = Map()
        for number, error in ((1.0, TypeError), (True, TypeError), ("1", TypeError), (None, TypeError), (2**31, ValueError), (-(2**31) - 1, ValueError)):
            for ask in (lambda n: m.insert(n, ZONE), lambda n: m.delete(n, ZONE), lambda n: m.update(n, ZONE, ZONE), Map):
                self.assertRaises(error, ask, number)
        self.assertRaisesRegex(ValueError, "record number: 4294967297 does not fit a signed 32-bit word", m.insert, 2**32 + 1, ZONE)
        self.assertEqual(len(m), 0)

    def test_rectangles(self) -> None:
        m = Map()
        wrong = [None, 7, "0011", b"abcd", {0, 1, 2, 3}, {0: 0, 1: 1, 2: 2, 3: 3}, (k for k in ZONE)]
        wrong += [(0, 0, 1.0, 1), (0, False, 1, 1), (0, 0, "1", 1), ((0, 0), (1, 1), 2, 2), (0, None, 1, 1)]
        for rect in wrong:
            for ask in (lambda r: m.insert(1, r), lambda r: m.delete(1, r), lambda r: m.update(1, ZONE, r), lambda r: m.update(1, r, ZONE)):
                self.assertRaises(TypeError, ask, rect)
            for search in (m.search, m.search_inside, m.search_enclosing):
                self.assertRaises(TypeError, search, rect)
            self.assertRaises(TypeError, m.room, rect)
        for rect in ((), (0, 0, 1), (0, 0, 1, 1, 2), (0, 0, 2**31, 0), (0, -(2**31) - 1, 0, 0), (2**32, 2**32, 2**32, 2**32)):
            self.assertRaises(ValueError, m.insert, 1, rect)
            self.assertRaises(ValueError, m.room, rect)
            for search in (m.search, m.search_inside, m.search_enclosing):
                self.assertRaises(ValueError, search, rect)
        self.assertRaisesRegex(ValueError, "new rectangle, high x: 2147483648", m.update, 1, ZONE, (0, 0, 2**31, 0))
        self.assertRaises(TypeError, Request, dustmap.INSERT, 1, Rect(0, 0, 1.5, 1))
        m.insert(1, [0, 0, 1, 1])
        m.insert(1, Rect(0, 0, 2, 2))

    def test_batches(self) -> None:
        m = Map()
        before = m.words()
        for requests in ([Request.insert(1, ZONE), ("insert", 1, ZONE)], [None], "insert", Request.insert(1, ZONE), 5):
            self.assertRaises(TypeError, m.batch, requests)
        for places, error in ((-1, ValueError), (1.0, TypeError), (True, TypeError), (2**31, ValueError)):
            self.assertRaises(error, m.search, ZONE, places)
        self.assertEqual(m.batch([]), [])
        self.assertEqual(m.words(), before)

    def test_pools(self) -> None:
        words = Map(1).words()
        for pool, error in ((None, TypeError), ("pool", TypeError), (set(words), TypeError), (iter(words), TypeError), (b"abc", ValueError)):
            self.assertRaises(error, Map.of, pool)
        for word, error in ((1.0, TypeError), (True, TypeError), (2**32 + 1, ValueError), (2**31, ValueError)):
            self.assertRaisesRegex(error, "word 0 of the pool", Map.of, [word, *words[1:]])


class Library(Case):
    """The shared library."""

    def test_it_shows_the_functions_of_the_header_alone(self) -> None:
        run = subprocess.run(["nm", "-D", "--defined-only", dustmap.library_path()], stdout=subprocess.PIPE, check=True, text=True)
        self.assertEqual({line.split()[-1] for line in run.stdout.splitlines()}, FUNCTIONS)

    def test_a_library_that_is_not_there(self) -> None:
        import _ctypes  # a shared object that is there and is not the map

        for path in ("no-such-folder/libdustmap.so", _ctypes.__file__):
            with mock.patch.dict(os.environ, DUSTMAP_LIBRARY=path):
                self.assertRaisesRegex(LibraryMissing, "Run `tools/library`", Map)

    def test_another_place_for_it(self) -> None:
        with mock.patch.dict(os.environ, DUSTMAP_LIBRARY=os.path.relpath(ROOT / "target/sharedlib/libdustmap.so")):
            self.assertEqual(len(Map()), 0)


class Model:
    """The map as a plain set of pairs. What it cannot know is when a slot is wanted and none is free (7; of an insert the map tells it beforehand), and
    how many nodes are opened."""

    def __init__(self) -> None:
        self.pairs: set[Record] = set()

    def refusal(self, r: Request) -> int:
        """The refusal that is due, 3 to 6, or 0."""
        rects = [r.first, r.second] if r.kind == dustmap.UPDATE else [r.first]
        if any(abs(c) > MOST for rect in rects for c in rect) or any(a > c or b > d for a, b, c, d in rects):
            return 3
        if r.kind in dustmap.SEARCHES:
            return 0
        if r.number < 1:
            return 4
        old, new = Record(r.number, r.first), Record(r.number, r.first if r.kind == dustmap.INSERT else r.second)
        if r.kind != dustmap.INSERT and old not in self.pairs:
            return 5
        held = r.kind == dustmap.INSERT or (r.kind == dustmap.UPDATE and new != old)
        return 6 if held and new in self.pairs else 0

    def found(self, search: Request) -> tuple[Record, ...]:
        """The pairs that the search lists, in found order."""
        return tuple(sorted(p for p in self.pairs if LISTS[search.kind](p.rect, search.first)))

    def do(self, r: Request) -> None:
        """The change that an accepted request makes."""
        if r.kind in (dustmap.DELETE, dustmap.UPDATE):
            self.pairs.remove(Record(r.number, r.first))
        if r.kind in (dustmap.INSERT, dustmap.UPDATE):
            self.pairs.add(Record(r.number, r.first if r.kind == dustmap.INSERT else r.second))


def meet(a: Rect, b: Rect) -> bool:
    """On each axis each low is at most the other's high."""
    return a.low_x <= b.high_x and b.low_x <= a.high_x and a.low_y <= b.high_y and b.low_y <= a.high_y


def inside(a: Rect, b: Rect) -> bool:
    """On each axis a begins no sooner than b and ends no later."""
    return b.low_x <= a.low_x and a.high_x <= b.high_x and b.low_y <= a.low_y and a.high_y <= b.high_y


# Whether a search of each kind lists a rectangle for a window.
LISTS: dict[int, Callable[[Rect, Rect], bool]] = {
    dustmap.SEARCH: meet,
    dustmap.SEARCH_INSIDE: inside,
    dustmap.SEARCH_ENCLOSING: lambda rect, window: inside(window, rect),
}


def opened(words: list[int], window: Rect) -> int:
    """The nodes that a search opens in every mode: the root, and one for each cover in the pool that meets the window."""
    count = 1
    for slot in range(8, len(words), 42):
        level, entries = words[slot : slot + 2]
        if level > 1:
            count += sum(meet(Rect(*words[at : at + 4]), window) for at in range(slot + 2, slot + 2 + 5 * entries, 5))
    return count


class Dice:
    """Random requests around few places and numbers, so that rectangles touch and pairs come again."""

    def __init__(self, seed: int, model: Model, wide: int) -> None:
        self.dice, self.model, self.wide = random.Random(seed), model, wide

    def rect(self) -> Rect:
        """Mostly a good one, small; sometimes with low above high, or out of range."""
        x, y = (self.dice.randint(-self.wide, self.wide) for _ in range(2))
        rect = Rect(x, y, x + self.dice.randint(0, self.wide // 4), y + self.dice.randint(0, self.wide // 4))
        chance = self.dice.random()
        if chance < 0.02:
            return Rect(rect.high_x + 1, rect.low_y, rect.low_x, rect.high_y)
        return rect._replace(high_y=MOST + self.dice.randint(0, 1)) if chance < 0.04 else rect

    def window(self) -> Rect:
        """Any rectangle; or about that of a pair that is held, so that records are equal to it, inside it, around it and just beside it."""
        if not self.model.pairs or self.dice.random() < 0.4:
            return self.rect()
        held = self.dice.choice(sorted(self.model.pairs)).rect
        return Rect(*(side + self.dice.choice([0, 0, 0, -1, 1]) for side in held))

    def draw(self) -> Request:
        """A request; deletes and updates mostly of a pair that is held."""
        kind = self.dice.choices([1, 2, 3, 4, 5, 6], [40, 22, 18, 8, 6, 6])[0]
        if kind in dustmap.SEARCHES:
            return Request(kind, 0, self.window())
        number, rect = self.dice.randint(0, 60), self.rect()
        if self.model.pairs and self.dice.random() < (0.1 if kind == dustmap.INSERT else 0.9):
            number, rect = self.dice.choice(sorted(self.model.pairs))
        if kind != dustmap.UPDATE:
            return Request(kind, number, rect)
        others = [p.rect for p in self.model.pairs if p.number == number]
        return Request.update(number, rect, self.dice.choice(others) if others and self.dice.random() < 0.2 else self.rect())


class Histories(Case):
    """Thousands of requests, against the plain model; one by one, and again in batches."""

    def history(self, seed: int, slots: int, wide: int, count: int) -> set[tuple[int, ...]]:
        """Requests one by one, each answer compared; then the same requests in batches, on another map.

        Gives the kinds with the answers met, and again with whether a record that was listed is equal to the window.
        """
        m, model = Map(slots), Model()
        dice = Dice(seed, model, wide)
        requests, answers, met = [], [], set()
        for _ in range(count):
            requests.append(dice.draw())
            answers.append(self.one(m, model, requests[-1]))
            met.add((requests[-1].kind, answers[-1].number))
            met |= {(requests[-1].kind, 0, int(record.rect == requests[-1].first)) for record in answers[-1].records}
        self.in_batches(slots, requests, answers, m.words())
        self.carried(m, model)
        return met

    def carried(self, m: Map, model: Model) -> None:
        """The file has the pairs of the model; a map with half as many slots as they are reads it, and writes the same."""
        file, there = m.write(), Map(len(model.pairs) // 2 or 1)
        self.assertEqual(file, file_of([(p.number, *p.rect) for p in sorted(model.pairs)]))
        there.read(file)
        self.assertEqual((there.records(), there.write()), (m.records(), file))

    def told(self, m: Map, insert: Request, due: int) -> tuple[int, int]:
        """The answer to an insert, with 7 as the map tells it beforehand; and the slots that are free after it."""
        if due == 3:
            self.refused(3, lambda: m.room(insert.first))
            return 3, m.free_slots
        room = m.room(insert.first)
        self.assertEqual(room.free, m.free_slots, insert)
        self.assertLessEqual(room.needed, m.height + 1, insert)
        number = due or (0 if room.fits else 7)
        return number, room.free if number else room.free - room.needed

    def one(self, m: Map, model: Model, request: Request, owner: int = 1, beside: int = 0) -> Answer:
        """One request of both, compared; its answer. The model is that of the owner, and the other one has so many records beside it."""
        due = model.refusal(request)
        due, left = self.told(m, request, due) if request.kind == dustmap.INSERT else (due, None)
        answer = m.batch([request], owner=owner)[0]
        no_slot = due == 0 and request.kind in (dustmap.DELETE, dustmap.UPDATE) and answer.number == 7
        self.assertEqual(answer.number, 7 if no_slot else due, request)
        if left is not None:
            self.assertEqual(m.free_slots, left, request)
        if request.kind in dustmap.SEARCHES and due == 0:
            self.assertEqual(answer.records, model.found(request), request)
            due_opened = opened(m.words(), request.first) if m.edition is Edition.ONE else 0
            self.assertEqual((answer.found, answer.opened), (len(answer.records), due_opened), request)
        else:
            self.assertEqual((answer.found, answer.opened, answer.records), (0, 0, ()), request)
        if answer.accepted:
            model.do(request)
        self.assertEqual(len(m), len(model.pairs) + beside, request)
        return answer

    def shared(self, seed: int, slots: int, wide: int, count: int) -> set[tuple[int, ...]]:
        """Requests of two owners on one map, each compared with that owner's model alone; often of a pair that the other one holds.

        Gives the kinds with the answers met, and again where the other one held the pair.
        """
        m, models, coin, met = Map(slots, edition=2), {1: Model(), 2: Model()}, random.Random(seed), set()
        dice = [Dice(seed + owner, model, wide) for owner, model in models.items()]
        for _ in range(count):
            owner, request = coin.choice([1, 2]), coin.choice(dice).draw()
            other = models[3 - owner]
            both = request.kind not in dustmap.SEARCHES and Record(request.number, request.first) in other.pairs
            answer = self.one(m, models[owner], request, owner, len(other.pairs))
            met |= {(request.kind, answer.number), (request.kind, answer.number, int(both))}
        file = file_of([(owner, p.number, *p.rect) for owner in (1, 2) for p in sorted(models[owner].pairs)], edition=2)
        self.assertEqual(m.write(), file)
        there = Map(len(m) // 2 or 1, edition=2)
        there.read(file)
        self.assertEqual((there.records(), there.records(owner=2), there.write()), (m.records(), m.records(owner=2), file))
        return met

    def in_batches(self, slots: int, requests: list[Request], answers: list[Answer], left: list[int]) -> None:
        """The same answers and the same pool come of batches of all sizes."""
        m, dice, at, again = Map(slots), random.Random(slots), 0, []
        while at < len(requests):
            size = dice.choice([1, 2, 10, 100, 1024])
            again += m.batch(requests[at : at + size])
            at += size
        self.assertEqual(again, answers)
        self.assertEqual(m.words(), left)

    def test_with_slots_enough(self) -> None:
        met = self.history(1, 1000, 300, 4000)
        wanted = {(1, 0), (1, 3), (1, 4), (1, 6), (2, 0), (2, 3), (2, 5), (3, 0), (3, 3), (3, 5), (3, 6)}
        wanted |= {answer for kind in dustmap.SEARCHES for answer in ((kind, 0), (kind, 3), (kind, 0, 0), (kind, 0, 1))}
        self.assertLessEqual(wanted, met, "a history that did not meet every answer")
        self.assertNotIn(7, {number for _, number, *_ in met})

    def test_with_few_slots(self) -> None:
        met = self.history(2, 12, 60, 3000) | self.history(3, 1, 20, 500) | self.history(4, 40, 1000, 3000)
        self.assertLessEqual({(1, 7), (3, 7)}, met, "a history that never ran out of slots")

    def test_of_two_owners(self) -> None:
        met = self.shared(5, 1000, 200, 3000) | self.shared(6, 12, 60, 2000)
        wanted = {(1, 0), (1, 3), (1, 4), (1, 6), (1, 7), (2, 0), (2, 3), (2, 5), (3, 0), (3, 3), (3, 5), (3, 6), (4, 0), (5, 0), (6, 0)}
        wanted |= {(1, 0, 1), (2, 5, 1), (3, 5, 1), (2, 0, 0), (1, 6, 0)}  # inserted beside the other's pair; the other's is not deleted, nor updated
        self.assertLessEqual(wanted, met, "a history that did not meet every answer")


class Count(unittest.TextTestResult):
    """Counts the tests that passed."""

    passed = 0

    def addSuccess(self, test: unittest.TestCase) -> None:
        super().addSuccess(test)
        self.passed += 1


def main(stream: TextIO = sys.stdout) -> None:
    """Runs every test; the last line counts."""
    tests = unittest.defaultTestLoader.loadTestsFromModule(sys.modules["__main__"])
    result = unittest.TextTestRunner(stream, resultclass=Count).run(tests)
    failed = len(result.failures) + len(result.errors) + len(result.unexpectedSuccesses) + len(result.skipped)
    print(f"{result.passed} passed, {failed} failed", file=stream)
    sys.exit(failed > 0 or result.passed == 0)


if __name__ == "__main__":
    main()
