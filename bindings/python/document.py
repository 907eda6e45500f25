#!/usr/bin/env python3
"""The example of document 01, through the Python module: prints what `dustmap` prints for it."""

from dustmap import Map, Request

REQUESTS = [
    Request.insert(7, (0, 0, 10, 10)),
    Request.insert(7, (0, 0, 10, 10)),
    Request.search((10, 10, 20, 20)),
    Request.delete(7, (0, 0, 10, 11)),
]


def main() -> None:
    """Each request as a batch of one, and its lines."""
    m = Map(slots=128)
    for place, request in enumerate(REQUESTS, 1):
        answer = m.batch([request], places=64)[0]
        print(place, answer.number, answer.found, answer.opened)
        for number, rect in answer.records:
            print(number, *rect)


if __name__ == "__main__":
    main()
