"""What tools/save and tools/load share: the proved map, frames run on it as `dustmap` runs them, files that are written whole or not at all, and what
is wrong with a file that is refused. It is no command."""
import argparse
import contextlib
import io
import os
import struct
import subprocess
import sys
from collections.abc import Callable, Iterator
from pathlib import Path
from typing import BinaryIO, Optional

ROOT = Path(__file__).resolve().parent.parent
sys.path.insert(0, str(ROOT / "bindings" / "python"))
import dustmap  # noqa: E402
from dustmap import Answer, Map, Record, Rect, Refused, Request  # noqa: E402

# How a command ends; the help of each says when.
DONE, BAD_FRAME, NO_INPUT, NO_OUTPUT, NOT_ALL, REFUSED, NO_LIBRARY = 0, 1, 2, 3, 4, 5, 9
# The kinds of frames, and how many words each has: requests (document 01, and Req 01 of document 02), and the frames of a file (Req 02).
REQUESTS = {1: 5, 2: 5, 3: 9, 4: 4, 5: 4, 6: 4}
HEAD, RECORD, END = {16: 2}, {17: 5}, {18: 0}
# "Each frame is a batch of one with a found list of 64."
PLACES = 64


class Stop(Exception):
    """Why a command ends before its work is done: its status, and what it says."""

    def __init__(self, status: int, words: str) -> None:
        super().__init__(words)
        self.status = status


class Wrong(Exception):
    """What is wrong with a frame."""


class BadFrame(Exception):
    """A frame of the input that is wrong: its place, from 1, and why."""

    def __init__(self, place: int, why: str) -> None:
        super().__init__(f"frame {place}: {why}")
        self.place = place


def note(words: str) -> None:
    """A line on standard error, if there is one."""
    if sys.stderr is not None:
        print(f"{Path(sys.argv[0]).name}: {words}", file=sys.stderr)


def counted(count: int, what: str) -> str:
    return f"{count:,} {what}{'s' * (count != 1)}"


def run(main: Callable[[], int]) -> int:
    """The status of a command; where it stopped before its end, it says why."""
    try:
        return main()
    except Stop as stop:
        note(str(stop))
        return stop.status
    except dustmap.LibraryMissing as missing:
        note(str(missing))
        return NO_LIBRARY
    except KeyboardInterrupt:
        return 130


# ---- what a command is given


def slots(text: str) -> int:
    """How many slots the map is to have, for argparse."""
    number = int(text)
    if not 1 <= number <= dustmap.MOST_SLOTS:
        raise argparse.ArgumentTypeError(f"{number:,} slots, where a map has 1 to {dustmap.MOST_SLOTS:,}")
    return number


def arguments(usage: str, help_text: str) -> argparse.ArgumentParser:
    """What both commands are given."""
    layout = argparse.RawDescriptionHelpFormatter
    parser = argparse.ArgumentParser(usage=usage, description=help_text, formatter_class=layout, allow_abbrev=False)
    parser.add_argument("file", metavar="FILE", help="the file that carries the map's records")
    parser.add_argument("--slots", metavar="N", type=slots, default=128, help="the slots of the map, 1 to 4,096; without it 128, as `dustmap` has")
    return parser


def blank(how_many: int) -> Map:
    """A blank map, after its library has been proved and built where that is due. Where DUSTMAP_LIBRARY names one, it is that one, as it is."""
    if "DUSTMAP_LIBRARY" not in os.environ:
        built = subprocess.run([ROOT / "tools" / "library"], stdin=subprocess.DEVNULL, stdout=sys.stderr, check=False)
        if built.returncode != 0:
            raise Stop(NO_LIBRARY, "the map's library could not be proved or built")
    return Map(how_many)


# ---- frames


def next_frame(stream: BinaryIO, kinds: dict[int, int]) -> Optional[tuple[int, tuple[int, ...]]]:
    """The kind and the words of the next frame, or None at the end. It is to be of one of these kinds, with as many words as that has."""
    head = stream.read(2)
    if not head:
        return None
    if len(head) < 2:
        raise Wrong("it is cut: one byte of its length, and not two")
    length = int.from_bytes(head, "little")
    body = stream.read(length)
    if len(body) < length:
        raise Wrong(f"it is cut: {len(body)} of the {length} bytes after its length")
    if length < 2:
        raise Wrong(f"wrong length {length}: it has no room for a kind")
    kind = int.from_bytes(body[:2], "little")
    if kind not in kinds:
        raise Wrong(f"kind {kind}, where {' or '.join(map(str, kinds))} is due")
    if length != 2 + 4 * kinds[kind]:
        raise Wrong(f"wrong length {length}: kind {kind} has {2 + 4 * kinds[kind]}")
    return kind, struct.unpack(f"<{kinds[kind]}i", body[2:])


def request_of(kind: int, words: tuple[int, ...]) -> Request:
    number, *rest = words if kind not in dustmap.SEARCHES else (0, *words)
    return Request(kind, number, Rect(*rest[:4]), Rect(*(rest[4:] or [0, 0, 0, 0])))


def requests(stream: BinaryIO) -> Iterator[tuple[int, Request]]:
    """The requests of the frames with their places, each as soon as it has come."""
    place = 0
    while True:
        place += 1
        try:
            frame = next_frame(stream, REQUESTS)
        except Wrong as wrong:
            raise BadFrame(place, str(wrong)) from None
        except OSError as error:
            raise Stop(NO_INPUT, f"standard input: {error.strerror}") from None
        if frame is None:
            return
        yield place, request_of(*frame)


def asked(m: Map, request: Request) -> Answer:
    """What `dustmap` does with a frame."""
    return m.batch([request], places=PLACES)[0]


def is_refused_change(place: int, answer: Answer) -> bool:
    """Whether the map lacks what a frame asked for, with a word on it if so. A search that is refused leaves nothing out of the map."""
    if answer.accepted or answer.request.kind in dustmap.SEARCHES:
        return False
    note(f"frame {place}: {Refused(answer.number, answer.request)}")
    return True


# ---- input, output and files


def standard_input() -> BinaryIO:
    """Standard input. It is asked for before any other file is opened, which would else get the number of an input that is closed."""
    try:
        return open(0, "rb", closefd=False)
    except OSError as error:
        raise Stop(NO_INPUT, f"standard input: {error.strerror}") from None


def printed(text: str) -> None:
    """Writes the text to standard output at once; with no text, it only sees that there is an output."""
    left = text.encode()
    try:
        os.fstat(1)
        while left:
            left = left[os.write(1, left) :]
    except OSError as error:
        raise Stop(NO_OUTPUT, f"standard output: {error.strerror}") from None


def contents(path: str) -> bytes:
    try:
        return Path(path).read_bytes()
    except OSError as error:
        raise Stop(NO_INPUT, f"{path}: {error.strerror}") from None


def put(path: str, data: bytes) -> None:
    """Writes a file beside the one of that name, and gives it the name when it is whole: nobody ever sees a part of it."""
    target = Path(os.path.realpath(path))
    part = target.with_name(f".{target.name}.{os.getpid()}.part")
    try:
        if target.exists() and not target.is_file():
            raise Stop(NO_OUTPUT, f"{path}: it is there already, and is not a file")
        with open(part, "wb") as out:
            out.write(data)
            out.flush()
            os.fsync(out.fileno())
        os.replace(part, target)
    except OSError as error:
        raise Stop(NO_OUTPUT, f"{path}: {error.strerror}; nothing is written") from None
    finally:
        with contextlib.suppress(OSError):
            part.unlink()


def save(m: Map, path: str, refused: int) -> int:
    """Writes the map's file, and gives the status: whether there were changes that the map refused."""
    put(path, m.write())
    note(f"{counted(len(m), 'record')} in {path}" + f", without what {counted(refused, 'refused request')} asked for" * (refused > 0))
    return NOT_ALL if refused else DONE


# ---- a file read, and what is wrong with it


class Fault(Exception):
    """The number that a frame is refused with, and why."""

    def __init__(self, number: int, why: str) -> None:
        super().__init__(why)
        self.number = number


def words_due(stream: BinaryIO, kind: dict[int, int]) -> tuple[int, ...]:
    """The words of the frame that is due."""
    try:
        frame = next_frame(stream, kind)
    except Wrong as wrong:
        raise Fault(dustmap.BAD_FRAME, str(wrong)) from None
    if frame is None:
        raise Fault(dustmap.BAD_FRAME, "the file ends before it")
    return frame[1]


def count_due(stream: BinaryIO) -> int:
    """The count in the head: "kind 16 first (edition 1, record count)"."""
    edition, count = words_due(stream, HEAD)
    if edition != 1:
        raise Fault(dustmap.BAD_FRAME, f"edition {edition}, where 1 is read here")
    if count < 0:
        raise Fault(dustmap.BAD_FRAME, f"a count of {count} records")
    return count


def shown(record: Record) -> str:
    return f"{record.number} {tuple(record.rect)}"


def record_due(stream: BinaryIO, last: Optional[Record]) -> Record:
    """The next record: 10, "then 3, 4, then 11 for a record not after its predecessor"."""
    number, *rect = words_due(stream, RECORD)
    record = Record(number, Rect(*rect))
    if max(map(abs, rect)) > dustmap.FARTHEST:
        raise Fault(dustmap.BAD_RECTANGLE, f"{shown(record)} has a coordinate out of range")
    if record.rect.low_x > record.rect.high_x or record.rect.low_y > record.rect.high_y:
        raise Fault(dustmap.BAD_RECTANGLE, f"{shown(record)} has low above high")
    if number < 1:
        raise Fault(dustmap.BAD_NUMBER, f"{shown(record)} has a number below 1")
    if last is not None and record <= last:
        raise Fault(dustmap.NOT_AFTER, f"{shown(record)} does not come after {shown(last)}")
    return record


def end_due(stream: BinaryIO) -> None:
    """The end: "kind 18 last with no words", and no "bytes after kind 18"."""
    words_due(stream, END)
    if after := len(stream.read()):
        raise Fault(dustmap.BAD_FRAME, f"{counted(after, 'byte')} after it")


def without_slot(records: list[Record], how_many: int) -> Optional[int]:
    """Which of the records, from 0, is the first that a map of so many slots has none free for."""
    m = Map(how_many)
    for first in range(0, len(records), dustmap.MOST_REQUESTS):
        answers = m.batch(Request.insert(*record) for record in records[first : first + dustmap.MOST_REQUESTS])
        for place, answer in enumerate(answers, first):
            if answer.number == dustmap.NO_SLOT:
                return place
    return None


def at_fault(file: bytes, number: int, how_many: int) -> Optional[str]:
    """Which frame of the file the map refused with that number, and why. To refuse is for the map alone: this only looks for the place, and gives
    None where it finds none with that number."""
    stream, records, count, name = io.BytesIO(file), [], 0, "frame 1, the head"
    try:
        count = count_due(stream)
        for k in range(1, count + 1):
            name = f"frame {k + 1}, record {k} of {count}"
            records.append(record_due(stream, records[-1] if records else None))
        name = f"frame {count + 2}, the end after {counted(count, 'record')}"
        end_due(stream)
    except Fault as fault:
        if fault.number == number:
            return f"{name}: {fault}"
    place = without_slot(records, how_many) if number == dustmap.NO_SLOT else None
    if place is None:
        return None
    # 2N + 1 records always fit N slots
    enough = f"; --slots {count // 2} would be enough" if count // 2 <= dustmap.MOST_SLOTS else ""
    return f"frame {place + 2}, record {place + 1} of {count}: {shown(records[place])} finds none of {counted(how_many, 'slot')} free{enough}"


def read(m: Map, path: str) -> None:
    """Reads a file into the map, or says which number it is refused with, what that means, and which frame is at fault."""
    file = contents(path)
    try:
        m.read(file)
    except Refused as refused:
        place = at_fault(file, refused.number, m.slots)
        raise Stop(REFUSED, f"{path}: refused {refused}" + (f"\n  At fault: {place}." if place else "")) from None
