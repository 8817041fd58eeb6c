"""Where the units of a picture stand: in rows from above, or in a ring."""
import math
from dataclasses import dataclass
from typing import Dict, Tuple

from .pictures import Shape

LETTER, PADDING, HEIGHT = 7.3, 9, 22  # the width of a letter, the room beside a name, and the height of a box
MARGIN, HEAD, LEFT = 24, 104, 34  # the room at the sides, above the rows, and for a row's number
ROOM, LINE, GAP = 14, 32, 46  # between boxes of a row, from one line of boxes to the next, and between rows
SCREEN = 1400  # to which a row is wrapped
RING_ROW, MOST_RING = 72, 320  # the height of a ring's row, and the most that it is wide to each side
SWEEPS = 12


@dataclass(frozen=True)
class Spot:
    """Where a box stands: its left upper corner and its width."""

    x: float
    y: float
    width: float

    def middle(self):
        """The middle of the box."""
        return self.x + self.width / 2, self.y + HEIGHT / 2


@dataclass(frozen=True)
class Layout:
    """Where all stands: spots by name, the top and the bottom of each row, and the size of the whole."""

    spots: Dict[str, Spot]
    rows: Dict[int, Tuple[float, float]]
    width: float
    height: float


def width_of(name):
    """The width of a unit's box."""
    return LETTER * len(name) + 2 * PADDING


def rows_of(picture):
    """The units of each row, so ordered that lines cross little: each stands where those stand, on the middle, to which it has lines."""
    rows = {}
    for box in picture.boxes:
        rows.setdefault(box.row, []).append(box.name)
    row_of = {box.name: box.row for box in picture.boxes}
    near = {box.name: [] for box in picture.boxes}
    for line in picture.drawn:
        if row_of[line.source] != row_of[line.target]:
            near[line.source].append(line.target)
            near[line.target].append(line.source)
    place = {name: (at + 0.5) / len(names) for names in rows.values() for at, name in enumerate(names)}
    numbers = sorted(rows)
    for sweep in range(SWEEPS):
        for number in numbers if sweep % 2 == 0 else numbers[::-1]:
            names = rows[number]
            means = {it: mean([place[other] for other in near[it]], place[it]) for it in names}
            names.sort(key=lambda it: (means[it], it))
            place.update({name: (at + 0.5) / len(names) for at, name in enumerate(names)})
    return {number: rows[number] for number in numbers}


def mean(numbers, default):
    """The mean of numbers, if there are some."""
    return sum(numbers) / len(numbers) if numbers else default


def lines_of(names):
    """The lines of boxes into which a row is wrapped: as few as the width of a screen allows, and the units going from one to the next, so that
    each stands about where its place is."""
    count = math.ceil(sum(width_of(it) + ROOM for it in names) / SCREEN)
    while count < len(names) and max(length_of(names[at::count]) for at in range(count)) > max(SCREEN, *map(width_of, names)):
        count += 1
    return [names[at::count] for at in range(count)]


def length_of(names):
    """How wide a line of these boxes is."""
    return sum(width_of(it) + ROOM for it in names) - ROOM


def row_layout(picture):
    """Units in rows, from above."""
    rows = {number: lines_of(names) for number, names in rows_of(picture).items()}
    wide = max(length_of(line) for lines in rows.values() for line in lines)
    spots, bands, y = {}, {}, HEAD
    for number, lines in rows.items():
        top = y
        for line in lines:
            x = MARGIN + LEFT + (wide - length_of(line)) / 2
            for name in line:
                spots[name] = Spot(x, y, width_of(name))
                x += width_of(name) + ROOM
            y += LINE
        bands[number] = top - (LINE - HEIGHT) / 2, y - (LINE - HEIGHT) / 2
        y += GAP
    return Layout(spots, bands, 2 * MARGIN + LEFT + wide, y - GAP + MARGIN)


def ring_layout(picture):
    """Units in a ring, in order: from the top down on the right, and up again on the left."""
    names = [it.name for it in picture.boxes]
    half, side = len(names) / 2, max(map(width_of, names)) / 2 + PADDING * 2
    wide = max(side, min(RING_ROW * half / 2, MOST_RING))
    spots = {}
    for at, name in enumerate(names):
        level = min(at, len(names) - at)
        out = 0 if level in (0, half) else max(wide * math.sin(math.pi * level / half), side)
        x = MARGIN + wide + side + (out if at < half else -out)
        spots[name] = Spot(x - width_of(name) / 2, HEAD + level * RING_ROW, width_of(name))
    return Layout(spots, {}, 2 * (MARGIN + wide + side), HEAD + math.floor(half) * RING_ROW + HEIGHT + MARGIN)


def layout_of(picture):
    """Where all of a picture stands."""
    return ring_layout(picture) if picture.shape is Shape.RING else row_layout(picture)
