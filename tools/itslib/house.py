"""The picture of the crates: sections as bands, crates as boxes, and an arrow from each crate to what it uses.

The arrows are those of the transitive reduction. A crate is in the row above all that it uses, as low as its section allows; the monitor
and the second machine are side by side. All arrows to one crate share their way down, which passes between the boxes of each row.
"""

from dataclasses import dataclass, field
from typing import Dict, List, Optional, Set, Tuple
from xml.sax.saxutils import escape

from .crates import TESTS, Crate, House

ROW = 50.0          # from a row to the next
BOX = 24.0          # the height of a box
CHAR = 7.0          # the width of a character in a box
GAP = 14.0          # between two boxes
TITLE = 16.0        # the room for the name of a section above its boxes
MARGIN = 150.0      # the room for the names of the sections, at the left
FAR = 1e9           # more than any place
ROUNDS = 60         # how often rows are put in order
LEFT, RIGHT = "Monitor", "Second machine"

COLOURS = {"Words and records": "#e8ebef", "Text": "#f6ecd9", "Definitions": "#f1e4f3", "Stores": "#e2f0e6", "Processor": "#fbe6e1",
           LEFT: "#dfeaf7", RIGHT: "#fdf3c9", "Program": "#e4e4f7", TESTS: "#f4f4f4"}
LINES = {"Words and records": "#66707c", "Text": "#a37a2c", "Definitions": "#8a4d94", "Stores": "#3c8455", "Processor": "#b4513a",
         LEFT: "#2c67a6", RIGHT: "#a08a14", "Program": "#5553a8", TESTS: "#9a9a9a"}
STYLE = """text { font-family: "DejaVu Sans", Verdana, sans-serif; font-size: 12px; fill: #1a1a1a }
.box { font-size: 11px; text-anchor: middle }
.section { font-size: 13px; font-weight: bold }"""


@dataclass
class Spot:
    """A place in a row: a crate, or a point through which the way to a crate (`to`) passes the row."""
    name: str
    row: int
    part: int                       # 0 at the left, 1 at the right of the two machines, 2 for tests
    to: str = ""
    x: float = 0.0
    above: List["Spot"] = field(default_factory=list)
    below: List["Spot"] = field(default_factory=list)

    def width(self) -> float:
        """How much room it needs."""
        return 4.0 if self.to else CHAR * len(self.name) + 14.0


def rows_of(house: House) -> Dict[str, int]:
    """The row of each crate, from 0 at the bottom."""
    rows: Dict[str, int] = {}
    start, uses = 0, house.arrows()
    for section in house.about:
        if section == RIGHT:
            start = min(rows[crate.name] for crate in house.of(LEFT))
        if section == TESTS:
            continue
        for crate in house.of(section):
            rows[crate.name] = max([start] + [rows[one] + 1 for one in uses[crate.name]])
        start = max(list(rows.values()) + [-1]) + 1
    for crate in house.of(TESTS):
        rows[crate.name] = max(rows[one] + 1 for one in uses[crate.name])
    return rows


def part_of(section: str) -> int:
    """Where the crates of a section are in their rows."""
    return {TESTS: 2, RIGHT: 1}.get(section, 0)


def spots_of(house: House) -> List[Spot]:
    """The places of all crates, and those of the ways that lead down to them."""
    rows, uses = rows_of(house), house.arrows()
    both = {rows[crate.name] for crate in house.of(LEFT) + house.of(RIGHT)}
    boxes = {crate.name: Spot(crate.name, rows[crate.name], part_of(crate.section)) for crate in house.crates}
    found = list(boxes.values())
    for crate in house.crates:
        users = [boxes[other.name] for other in house.crates if crate.name in uses[other.name]]
        ways = {rows[crate.name]: {0: boxes[crate.name]}}
        for row in range(rows[crate.name] + 1, max([user.row for user in users] + [0])):
            parts = parts_of_way(house, crate, [user.name for user in users if user.row > row], row in both)
            ways[row] = {part: Spot("%s+%d" % (crate.name, row), row, part, crate.name) for part in sorted(parts)}
            for part, spot in ways[row].items():
                join(spot, nearest(ways[row - 1], part))
            found += ways[row].values()
        for user in users:
            join(user, nearest(ways[user.row - 1], 0 if user.name in {one.name for one in house.of(LEFT)} else 1))
    return found


def parts_of_way(house: House, crate: Crate, users: List[str], beside: bool) -> Set[int]:
    """In which parts of a row are ways to a crate, if these use it from above; `beside` says that the machines are in the row."""
    sections = {house.named(user).section for user in users}
    if sections == {TESTS}:
        return {2}
    if not beside:
        return {0}
    return ({0} if LEFT in sections and crate.section != RIGHT else set()) | ({1} if sections - {LEFT, TESTS} else set())


def nearest(ways: Dict[int, Spot], part: int) -> Spot:
    """The way in this part of a row, or else the first."""
    return ways.get(part, ways[min(ways)])


def join(high: Spot, low: Spot) -> None:
    """An arrow leads from one place to another, one row below."""
    high.below.append(low)
    low.above.append(high)


def mean(spots: List[Spot]) -> Optional[float]:
    """The middle of some places."""
    return sum(spot.x for spot in spots) / len(spots) if spots else None


def placed(row: List[Spot], wanted: List[float], least: float = -FAR, most: float = FAR) -> None:
    """Puts a row as near as can be to the wanted places, in its order and between two bounds: if two would overlap, both move by as much."""
    blocks: List[List[float]] = []          # the sum of the wanted starts, and how many there are
    shifts, at = [], 0.0
    for spot, x in zip(row, wanted):
        at += spot.width() / 2
        shifts.append(at)
        blocks.append([x - at, 1.0])
        at += spot.width() / 2 + GAP
        while len(blocks) > 1 and blocks[-2][0] / blocks[-2][1] > blocks[-1][0] / blocks[-1][1]:
            total, count = blocks.pop()
            blocks[-1][0] += total
            blocks[-1][1] += count
    starts = [block[0] / block[1] for block in blocks for _ in range(int(block[1]))]
    for spot, start, shift in zip(row, starts, shifts):
        spot.x = round(min(max(start, least), most - at + GAP) + shift, 3)


def crossings(upper: List[Spot]) -> int:
    """How many arrows cross between a row in its order and the row below."""
    ends = [sorted(low.x for low in high.below) for high in upper]
    return sum(1 for at, one in enumerate(ends) for other in ends[at + 1:] for a in one for b in other if a > b)


def arranged(rows: List[List[Spot]]) -> None:
    """Puts each row in an order in which few arrows cross, and in places that make them short."""
    for row in rows:
        row.sort(key=lambda spot: spot.part)
        placed(row, [0.0] * len(row))
    best: Tuple[int, List[List[Spot]]] = (1 << 30, [])
    for count in range(ROUNDS):
        downwards = count % 2 == 1
        for row in reversed(rows) if downwards else rows:
            means = [mean(spot.above if downwards else spot.below) for spot in row]
            wanted = {id(spot): spot.x if x is None else x for spot, x in zip(row, means)}
            row.sort(key=lambda spot: (spot.part, wanted[id(spot)]))
            placed(row, [wanted[id(spot)] for spot in row])
        crossed = sum(crossings(row) for row in rows)
        if crossed < best[0]:
            best = (crossed, [list(row) for row in rows])
    for row, order in zip(rows, best[1]):
        row[:] = order


def drawn_together(rows: List[List[Spot]], first: int, last: int) -> float:
    """Moves all places, in their order, so that their arrows are short. In the rows from first to last what is in the left part remains
    at the left of one place, and all else at its right. Returns this place."""
    middle = sum(spot.x for spot in rows[first - 1]) / len(rows[first - 1])
    for count in range(ROUNDS):
        for row in rows if count % 2 else rows[::-1]:
            wanted = {id(spot): mean(spot.above + spot.below) or 0.0 for spot in row}
            parts = [[spot for spot in row if spot.part == 0], [spot for spot in row if spot.part]]
            for spots, bounds in zip(parts, ((-FAR, middle - GAP), (middle + GAP, FAR))) if first <= row[0].row <= last else [(row, (-FAR, FAR))]:
                placed(spots, [wanted[id(spot)] for spot in spots], *bounds)
    return middle


def num(x: float) -> str:
    """A coordinate."""
    return ("%.1f" % x).rstrip("0").rstrip(".")


def tower(rows: List[List[Spot]]) -> float:
    """Moves the tests into one column at the right of all else; returns the left end of this column."""
    start = max(spot.x + spot.width() / 2 for row in rows for spot in row if spot.part < 2) + 3 * GAP
    for row in rows:
        at = start + GAP
        for spot in [spot for spot in row if spot.part == 2]:
            spot.x = at + spot.width() / 2
            at += spot.width() + GAP
    return start


class Drawing:
    """The picture of the crates in their rows."""

    def __init__(self, house: House):
        self.house = house
        spots = spots_of(house)
        count = max(spot.row for spot in spots) + 1
        self.rows = [[spot for spot in spots if spot.row == row] for row in range(count)]
        self.boxes = {spot.name: spot for spot in spots if not spot.to}
        arranged(self.rows)
        both = [self.boxes[crate.name].row for crate in house.of(LEFT) + house.of(RIGHT)]
        self.middle = drawn_together(self.rows, min(both), max(both))
        self.tests = tower(self.rows)
        least = min(spot.x - spot.width() / 2 for row in self.rows for spot in row)
        self.shift = MARGIN - least
        self.width = max(spot.x + spot.width() / 2 for row in self.rows for spot in row) + self.shift + GAP
        self.height = count * ROW + 2 * GAP + TITLE

    def x_of(self, x: float) -> float:
        """A place from the left."""
        return x + self.shift

    def y_of(self, row: int) -> float:
        """The middle of a row, from the top."""
        return self.height - GAP - (row + 0.5) * ROW

    def band(self, section: str) -> List[str]:
        """The ground of a section, with its name."""
        rows = [self.boxes[crate.name].row for crate in self.house.of(section)]
        low, high = (0, len(self.rows) - 1) if section == TESTS else (min(rows), max(rows))
        top, under = self.y_of(high) - ROW / 2 + (2 - TITLE if section in (RIGHT, TESTS) else 2), self.y_of(low) + ROW / 2 - 2
        left = {TESTS: self.x_of(self.tests), RIGHT: self.x_of(self.middle)}.get(section, 4.0)
        right = {TESTS: self.width - 4, LEFT: self.x_of(self.middle) - 4}.get(section, self.x_of(self.tests) - 4)
        place = (right - 10, "end") if section == RIGHT else (left + 10, "start")
        return ['<rect x="%s" y="%s" width="%s" height="%s" rx="6" fill="%s"/>' % (
            num(left), num(top), num(right - left), num(under - top), COLOURS[section]),
                '<text class="section" text-anchor="%s" x="%s" y="%s" style="fill:%s">%s</text>' % (
                    place[1], num(place[0]), num(top + 18), LINES[section], escape(section))]

    def arrow(self, high: Spot, low: Spot) -> str:
        """What leads from a place to one in the row below."""
        section = self.house.named(high.to or high.name).section
        dashes = ' stroke-dasharray="3 3"' if section == TESTS else ""
        top = self.y_of(high.row) + (0 if high.to else BOX / 2)
        end = self.y_of(low.row) - (0 if low.to else BOX / 2 + 5)
        x, to_x, half = self.x_of(high.x), self.x_of(low.x), (top + end) / 2
        path = "M%s %sC%s %s %s %s %s %s" % tuple(map(num, (x, top, x, half, to_x, half, to_x, end)))
        return '<path d="%s" fill="none" stroke="%s"%s%s/>' % (path, LINES[section], dashes, "" if low.to else ' marker-end="url(#end)"')

    def box(self, name: str) -> List[str]:
        """A crate."""
        spot, colour = self.boxes[name], LINES[self.house.named(name).section]
        x, y = self.x_of(spot.x), self.y_of(spot.row)
        return ['<rect x="%s" y="%s" width="%s" height="%s" rx="4" fill="#fff" stroke="%s"/>' % (
            num(x - spot.width() / 2), num(y - BOX / 2), num(spot.width()), num(BOX), colour),
                '<text class="box" x="%s" y="%s">%s</text>' % (num(x), num(y + 4), escape(name))]

    def svg(self) -> str:
        """The whole picture."""
        lines = ['<svg xmlns="http://www.w3.org/2000/svg" width="%s" height="%s" viewBox="0 0 %s %s">' % (
            (num(self.width), num(self.height)) * 2), "<title>The crates, and what each uses</title>", "<style>%s</style>" % STYLE,
            '<defs><marker id="end" viewBox="0 0 8 8" refX="4" refY="4" markerWidth="7" markerHeight="7" orient="auto">'
            '<path d="M0 0L8 4L0 8z" fill="#444"/></marker></defs>', '<rect width="100%" height="100%" fill="#fff"/>']
        for section in self.house.about:
            lines += self.band(section)
        lines += [self.arrow(high, low) for row in self.rows for high in row for low in high.below]
        for crate in self.house.crates:
            lines += self.box(crate.name)
        return "\n".join(lines + ["</svg>"]) + "\n"


def picture(house: House) -> str:
    """The picture of the crates, as SVG."""
    return Drawing(house).svg()
