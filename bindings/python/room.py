#!/usr/bin/env python3
"""How a crew at a remote pit tells from the map whether an insert will fit, through the Python module: asked before each insert, the map says how many
slots it needs and how many are free, and then answers as it has told. Two inserts in one batch were told of the same free slot, and the first takes it.

Prints what the map tells and answers, in a map of two slots and in one of four.
"""

from dustmap import Map, Rect, Refused, Request


def sensor(x: int) -> Rect:
    """A sensor, which is a point."""
    return Rect(x, 5_000, x, 5_000)


# records 1 to 19
ZONES = [
    *(Rect(10_000 * k, 0, 10_000 * k + 10_000, 10_000) for k in range(8)),  # a row of eight stockpiles
    Rect(1_000_000, 0, 1_010_000, 10_000),  # one far away in the east
    *map(sensor, (15_000, 25_000)),  # two sensors in the west
    *map(sensor, (200_000, 300_000, 400_000, 500_000, 600_000)),  # and five in the east
    *map(sensor, (5_000, 900_000)),  # one more in the west, and one in the east
    Rect(10_000, 0, 0, 10_000),  # no rectangle: low above high
]


def told(m: Map, record: int) -> str:
    """What an insert of the record would need, and what is free; or the number by which the question is refused."""
    try:
        room = m.room(ZONES[record - 1])
    except Refused as refused:
        return f"record {record} refused {refused.number}"
    return f"record {record} needs {room.needed}, {room.free} free"


def insert(m: Map, *records: int) -> str:
    """Inserts of these records as one batch: the answers."""
    answers = m.batch(Request.insert(record, ZONES[record - 1]) for record in records)
    return " ".join(["answered", *(str(answer.number) for answer in answers)])


def step(m: Map, record: int) -> None:
    """What the map tells of an insert, and what it then answers."""
    print(f"{told(m, record)}, {insert(m, record)}")


def fill(slots: int, last: int) -> Map:
    """A map of so many slots, and records 1 to the last, one by one."""
    print(slots, "slots")
    m = Map(slots)
    for record in range(1, last + 1):
        step(m, record)
    return m


def main() -> None:
    """Two slots, which are too few for nine records; and four, for which a batch is too much."""
    fill(2, 9)
    m = fill(4, 16)
    print(told(m, 17))
    print(told(m, 18))
    print("both in one batch,", insert(m, 17, 18))
    step(m, 18)
    print(told(m, 19))


if __name__ == "__main__":
    main()
