#!/usr/bin/env python3
"""How a planner closes a block, through the Python module: zones are inserted, and the block is searched in the three modes, all in one batch.

Prints what `dustmap` prints for examples/modes.frames.
"""

from dustmap import Map, Request

BLOCK = (100_000, 50_000, 300_000, 200_000)
ZONES = [
    (140_000, 80_000, 180_000, 120_000),  # a stockpile inside the block
    (100_000, 50_000, 300_000, 58_000),  # a haul road along its south side, which touches three sides from within
    (100_000, 50_000, 300_000, 200_000),  # the same block on an older plan: equal
    (0, 0, 400_000, 250_000),  # the quarry, which encloses it
    (250_000, 150_000, 350_000, 150_000),  # a conveyor, which its east side cuts
    (300_000, 60_000, 340_000, 90_000),  # a stockpile that touches it from outside
    (310_000, 20_000, 330_000, 30_000),  # the gate, apart from it
]


def main() -> None:
    """Every request in one batch, and the lines of its answer."""
    m = Map(slots=128)
    requests = [Request.insert(number, zone) for number, zone in enumerate(ZONES, 1)]
    requests += [Request.search(BLOCK), Request.search_inside(BLOCK), Request.search_enclosing(BLOCK)]
    for place, answer in enumerate(m.batch(requests), 1):
        print(place, answer.number, answer.found, answer.opened)
        for number, rect in answer.records:
            print(number, *rect)


if __name__ == "__main__":
    main()
