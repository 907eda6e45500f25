#!/usr/bin/env python3
"""How dispatch uses floats, through the Python module: a surveyor's boxes are inserted, and searched by a point, a box and a disc.

Prints each rectangle that comes of them, then what `dustmap` prints for the request.
"""

from dustmap import Map, Rect, Refused, Request

BOXES = [
    (-1250.5, -300.25, 1000.75, 200.0),  # fractions go outward, below zero too
    (2000.25, 480.0, 2600.5, 480.0),  # a conveyor: flat, and it stays so
    (1500.0, 900.0, 1800.0, 1200.0),  # whole millimetres stay as they are
]
QUERIES = [
    (Rect.from_point, (-1250.25, 0.5)),
    (Rect.from_box, (900.5, -50.0, 2000.0, 480.5)),
    (Rect.from_disc, (1900.0, 700.0, 250.5)),
    (Rect.from_disc, (1900.0, 700.0, -1.0)),
]


def ask(m: Map, place: int, request: Request) -> None:
    """A batch of one, and its lines."""
    answer = m.batch([request], places=64)[0]
    print(place, answer.number, answer.found, answer.opened)
    for number, rect in answer.records:
        print(number, *rect)


def main() -> None:
    """The boxes, then the searches; what is no window is refused before there is a request."""
    m = Map(slots=128)
    for number, box in enumerate(BOXES, 1):
        rect = Rect.from_box(*box)
        print("rectangle", *rect)
        ask(m, number, Request.insert(number, rect))
    for place, (window_of, given) in enumerate(QUERIES, len(BOXES) + 1):
        try:
            window = window_of(*given)
        except Refused as refused:
            print("refused", refused.number)
            continue
        print("window", *window)
        ask(m, place, Request.search(window))


if __name__ == "__main__":
    main()
