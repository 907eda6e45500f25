#!/usr/bin/env python3
"""How a map is carried between offices, through the Python module: the pit's map is filled and written to a file, and head office reads that
into a map of its own and searches there.

Prints what `dustmap` prints for a search at the pit; the file, a frame a line; the same search at head office; and what comes of a file that lacks
a byte, and of a map that is too small.
"""

from dustmap import Map, Refused, Request

# in the order in which they were surveyed, which is not that of the file
ZONES = [
    (105, (440_000, 110_000, 440_000, 110_000)),  # a sensor, which is a point
    (50, (330_000, 150_000, 352_000, 176_000)),  # the crusher
    (1, (408_000, 72_000, 420_000, 300_000)),  # a haul road, its north leg
    (1, (40_000, 60_000, 420_000, 72_000)),  # and its south leg, under the same number
    (10, (60_000, 80_000, 89_000, 115_000)),  # a stockpile
    (11, (107_000, 80_000, 142_000, 112_000)),  # another one
    (53, (352_000, 160_000, 380_000, 160_000)),  # a conveyor, which is flat
    (2, (0, 20_000, 40_000, 30_000)),  # the gate
    (106, (60_000, 250_000, 60_000, 250_000)),  # another sensor
]
WINDOW = (330_000, 60_000, 440_000, 170_000)


def search(place: int, m: Map) -> None:
    """A search of the same place in either map, and its lines."""
    answer = m.batch([Request.search(WINDOW)])[0].or_raise()
    print(place, answer.number, answer.found, answer.opened)
    for number, rect in answer.records:
        print(number, *rect)


def show(file: bytes) -> None:
    """A frame a line: its first two bytes say how many follow."""
    while file:
        size = 2 + int.from_bytes(file[:2], "little")
        print(file[:size].hex())
        file = file[size:]


def read(m: Map, file: bytes) -> int:
    """The number that comes back, 0 or a refusal."""
    try:
        m.read(file)
    except Refused as refused:
        return refused.number
    return 0


def main() -> None:
    """The pit, head office, and what is refused there."""
    pit = Map(slots=128)
    for number, rect in ZONES:
        pit.insert(number, rect)
    search(1, pit)

    file = pit.write()
    print("written", len(file))
    show(file)

    office = Map(slots=4)  # these take every file of up to nine records
    print("read", read(office, file))
    search(2, office)
    print("written again", "the same" if office.write() == file else "other bytes")

    print("a byte missing", read(office, file[:-1]))
    print("one slot", read(Map(slots=1), file))
    search(3, office)


if __name__ == "__main__":
    main()
