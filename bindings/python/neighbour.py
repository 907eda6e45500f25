#!/usr/bin/env python3
"""How two neighbours share one map, through the Python module: each inserts its zones into a map of edition 2, one of them the same pair, and each
sees its own. The neighbour deletes the pair, and ours stays. The file carries the owners to another office. Last, what one can tell of the other: the
slots are shared, so that an insert may be refused 7.

Prints whose batch it is, and then what `dustmap` prints for its requests; and the file, a frame a line, with what comes of it.
"""

from dustmap import Map, Rect, Refused, Request

ROAD = Rect(0, 50_000, 400_000, 60_000)  # along the boundary: both keep it
ALL = Request.search((0, 0, 400_000, 120_000))  # what there is on both sides
SMALL = Rect(0, 0, 1, 1)


def ask(m: Map, owner: int, *requests: Request) -> None:
    """A batch of that owner, and its lines."""
    print("owner", owner)
    for place, answer in enumerate(m.batch(requests, owner=owner), 1):
        print(place, answer.number, answer.found, answer.opened)
        for number, rect in answer.records:
            print(number, *rect)


def shared() -> Map:
    """Both sides of the boundary, on one map."""
    site = Map(slots=8, edition=2)
    stockpile, sensor = Rect(60_000, 20_000, 90_000, 45_000), Rect(100_000, 55_000, 100_000, 55_000)
    ask(site, 1, Request.insert(1, ROAD), Request.insert(10, stockpile), Request.insert(105, sensor), ALL)
    # they hold the same pair for themselves, and cannot hold it twice
    theirs, crusher = Rect(60_000, 70_000, 95_000, 100_000), Rect(200_000, 80_000, 230_000, 110_000)
    ask(site, 2, Request.insert(1, ROAD), Request.insert(1, ROAD), Request.insert(10, theirs), Request.insert(20, crusher), ALL)
    # they give it up, and cannot delete ours
    ask(site, 2, Request.delete(1, ROAD), Request.delete(1, ROAD), ALL)
    ask(site, 1, ALL)
    return site


def show(file: bytes) -> None:
    """A frame a line: its first two bytes say how many follow."""
    print("written", len(file))
    while file:
        size = 2 + int.from_bytes(file[:2], "little")
        print(file[:size].hex())
        file = file[size:]


def read(m: Map, file: bytes) -> int:
    """The number that comes back, 0 or a refusal."""
    try:
        m.read(file)
    except Refused as refused:
        return refused.number
    return 0


def carry(site: Map) -> None:
    """The map at another office; and what is refused there."""
    file, office = site.write(), Map(slots=4, edition=2)
    show(file)
    print("read", read(office, file))
    ask(office, 1, ALL)
    ask(office, 2, ALL)
    print("written again", "the same" if office.write() == file else "other bytes")
    print("into a pool of edition 1", read(Map(slots=4), file))
    # the owner of the first record, after the frame of 12 bytes, a length and a kind
    print("a record of owner 3", read(office, file[:16] + bytes([3]) + file[17:]))


def main() -> None:
    """The map that is shared, its file, and a map that is full."""
    carry(shared())
    print("one slot")
    small = Map(slots=1, edition=2)
    ask(small, 2, *(Request.insert(number, SMALL) for number in range(1, 9)))
    ask(small, 1, Request.search(SMALL), Request.insert(9, SMALL))


if __name__ == "__main__":
    main()
