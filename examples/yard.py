"""A small yard to try the commands on: python3 examples/yard.py FOLDER

Rows of plots with paths between them and a wall across, as a survey would have it. Marks stand at the corners of the plots; ties go
along the sides of the plots, over some of their diagonals and across the paths, and through the wall at its gate alone. Each tie is a
distance, of one equation row. Written are marks.ord, ties.rec, want.rec, places.txt, and three.rec, which wants three blocks: four are too
many for any mark to meet them all. The order is a nested dissection by places: what parts the yard is eliminated last."""

import os
import random
import struct
import sys

ROWS, PLOTS = 6, 6            # rows of plots, and plots of a row on each side of the middle path
WIDE, DEEP = 5.0, 8.0         # a plot
PATH, MIDDLE = 3.0, 4.0       # the paths between rows, and the middle one
WALL, THICK = 3, 2.0          # the row that the wall stands before, and what it takes
LIMIT, BLOCKS = 90, 4


def corners(rng):
    """The place of each corner, by row, front or back, and number along the row."""
    places = {}
    for row in range(ROWS):
        for side in (0, 1):
            for along in range(2 * (PLOTS + 1)):
                x = along * WIDE + (MIDDLE - WIDE) * (along > PLOTS)
                y = row * (DEEP + PATH) + side * DEEP + THICK * (row >= WALL)
                places[row, side, along] = x + rng.uniform(-0.5, 0.5), y + rng.uniform(-0.5, 0.5)
    return places


def measured(rng):
    """The ties, as pairs of corners."""
    for row in range(ROWS):
        for along in range(2 * (PLOTS + 1)):
            yield (row, 0, along), (row, 1, along)
            if row + 1 < ROWS and (along in (PLOTS, PLOTS + 1) if row + 1 == WALL else rng.random() < 0.7):
                yield (row, 1, along), (row + 1, 0, along)
        for along in range(2 * PLOTS + 1):
            for side in (0, 1):
                yield (row, side, along), (row, side, along + 1)
            if along != PLOTS and rng.random() < 0.6:
                side = rng.randrange(2)
                yield (row, side, along), (row, 1 - side, along + 1)


def dissected(marks, places, neighbours):
    """The marks in an order: of two halves first the one, then the other, last those that part them."""
    if len(marks) < 5:
        return marks
    found = []
    for axis in (0, 1):
        line = sorted(marks, key=lambda mark: (places[mark][axis], mark))
        for cut in range(len(line) * 2 // 5, len(line) * 3 // 5 + 1):
            beyond = set(line[cut:])
            parting = [mark for mark in line[:cut] if neighbours[mark] & beyond]
            found.append((len(parting), abs(len(line) - 2 * cut), axis, [mark for mark in line[:cut] if mark not in parting], line[cut:], parting))
    _, _, _, low, high, parting = min(found)
    return dissected(low, places, neighbours) + dissected(high, places, neighbours) + parting


def written(folder, name, numbers):
    with open(os.path.join(folder, name), "wb") as file:
        file.write(struct.pack(f"<{len(numbers)}I", *numbers))


def main(folder):
    rng = random.Random(12)
    places = corners(rng)
    named = {corner: mark for mark, corner in enumerate(rng.sample(sorted(places), len(places)))}
    places = {named[corner]: place for corner, place in places.items()}
    ties = [(named[one], named[other]) for one, other in measured(rng)]
    neighbours = {mark: set() for mark in places}
    for one, other in ties:
        neighbours[one].add(other)
        neighbours[other].add(one)
    os.makedirs(folder, exist_ok=True)
    written(folder, "marks.ord", dissected(sorted(places), places, neighbours))
    written(folder, "ties.rec", [number for tie in ties for number in (*tie, 1)])
    written(folder, "want.rec", [LIMIT, BLOCKS])
    written(folder, "three.rec", [LIMIT, 3])
    with open(os.path.join(folder, "places.txt"), "w") as file:
        file.writelines(f"{x:.2f} {y:.2f}\n" for _, (x, y) in sorted(places.items()))


if __name__ == "__main__":
    if len(sys.argv) != 2:
        sys.exit(__doc__)
    main(sys.argv[1])
