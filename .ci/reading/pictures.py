"""The pictures of docs/pictures, drawn from the descriptions in docs/pictures/pictures.txt.

  .ci/tree pictures --write  draws them
  .ci/tree pictures --check  fails where one differs from what is drawn, or names what the sources don't have

A description is of lines. `picture NAME: TITLE` begins one, with NAME.svg. The others are of the last picture:

  zone COLUMN,ROW WIDTHxHEIGHT: TEXT                   a ground below boxes, its width in columns and its height in rows
  box ID COLUMN,ROW: NAME, .. of CRATE: TEXT / TEXT    a box with names of a crate's code or definitions
  box ID COLUMN,ROW: TITLE: TEXT / TEXT                a box with a title alone
  ID -> ID: TEXT                                       an arrow between boxes of one column or one row: what the first
                                                       rests on
  ID => ID: TEXT                                       an arrow to what comes next
  ID -- ID: TEXT                                       a line

Names and titles have no colon, and the text of a box may lack. A name has to be a word of its crate. Where
`->` leads from a definition or a public call to a definition, what it is, or the call's clauses, have to lead there; the
crate of the first has to depend on that of the second.
"""
import os
import re
import sys
from dataclasses import dataclass, field
from functools import cache

from libraries import TOP, all_below, crates
from reading.believe import known, public_calls, reached
from reading.docs import crate as words_of_crate
from reading.sources import is_there, read

sys.path.insert(0, f"{TOP}/examples")
from drawing import LETTER, svg, text_at  # noqa: E402  (found by the line above)

FOLDER = "docs/pictures"
SOURCE = f"{FOLDER}/pictures.txt"

PICTURE = re.compile(r"picture (\w+): (.+)")
ZONE = re.compile(r"zone (\d+),(\d+) (\d+)x(\d+): (.+)")
BOX = re.compile(r"box (\w+) (\d+),(\d+): ([^:]+(?:::\w+[^:]*)*?)(?:: (.+))?")
ARROW = re.compile(r"(\w+) (->|=>|--) (\w+)(?:: (.+))?")

EDGE, PAD, LINE = 16, 10, 17
GAP, ROW_GAP, ZONE_HEAD = 40, 40, 24
STYLE = 'fill="#eaf2fb" stroke="#1f5f99"'


@dataclass
class Box:
    column: int
    row: int
    names: list
    crate: str
    lines: list

    def texts(self):
        """The lines of the box, each with how it is drawn."""
        head = [(", ".join(self.names) if self.crate else self.names[0], ' font-weight="bold"')]
        crate = [(self.crate, ' fill="#555555"')] if self.crate else []
        return [*head, *crate, *((it, "") for it in self.lines)]

    def width(self):
        return max(len(it) for it, _ in self.texts()) * LETTER + 2 * PAD

    def height(self):
        return len(self.texts()) * LINE + PAD


@dataclass
class Picture:
    name: str
    title: str
    zones: list = field(default_factory=list)
    boxes: dict = field(default_factory=dict)
    # The boxes at both ends, the sign between them, and the text.
    arrows: list = field(default_factory=list)


def stop(number, why):
    sys.exit(f"pictures: {SOURCE}:{number}: {why}")


def box_of(found):
    names, _, crate = found[4].partition(" of snap_")
    titles = [it.strip() for it in names.split(", ")] if crate else [found[4].strip()]
    lines = [it.strip() for it in (found[5] or "").split(" / ") if it.strip()]
    return Box(int(found[2]), int(found[3]), titles, crate and f"snap_{crate.strip()}", lines)


def add_line(picture, number, line):
    """A zone, a box or an arrow of the picture."""
    if found := ZONE.fullmatch(line):
        picture.zones.append((*map(int, found.groups()[:4]), found[5]))
    elif found := BOX.fullmatch(line):
        picture.boxes[found[1]] = box_of(found)
    elif found := ARROW.fullmatch(line):
        for end in (found[1], found[3]):
            if end not in picture.boxes:
                stop(number, f"there is no box {end} above")
        one, other = picture.boxes[found[1]], picture.boxes[found[3]]
        if (one.column == other.column) == (one.row == other.row):
            stop(number, "the boxes are not of one column or one row")
        picture.arrows.append((one, other, found[2], found[4] or ""))
    else:
        stop(number, f"no line of a picture: {line}")


@cache
def pictures():
    """The pictures of the source."""
    found = []
    for number, line in enumerate(read(SOURCE).split("\n"), 1):
        line = line.strip()
        if head := PICTURE.fullmatch(line):
            found.append(Picture(head[1], head[2]))
        elif line and not line.startswith("#"):
            if not found:
                stop(number, "no picture has begun")
            add_line(found[-1], number, line)
    return found


class Grid:
    """Where the columns and rows of a picture stand."""

    def __init__(self, picture):
        boxes = picture.boxes.values()
        columns, rows = 1 + max(it.column for it in boxes), 1 + max(it.row for it in boxes)
        self.widths = [max((it.width() for it in boxes if it.column == at), default=0) for at in range(columns)]
        for column, _, wide, _, text in picture.zones:
            if wide == 1:
                self.widths[column] = max(self.widths[column], len(text) * LETTER)
        self.heights = [max((it.height() for it in boxes if it.row == at), default=0) for at in range(rows)]
        gaps = [GAP] * columns
        for one, other, _, text in picture.arrows:
            if one.row == other.row:
                at = min(one.column, other.column)
                gaps[at] = max(gaps[at], len(text) * LETTER + 2 * PAD)
        self.lefts = [EDGE + PAD + sum(self.widths[:at]) + sum(gaps[:at]) for at in range(columns)]
        head = 2 * EDGE + (ZONE_HEAD if picture.zones else PAD)
        self.tops = [head + sum(self.heights[:at]) + ROW_GAP * at for at in range(rows)]

    def right(self, column):
        return self.lefts[column] + self.widths[column]

    def bottom(self, row):
        return self.tops[row] + self.heights[row]

    def place(self, box):
        """The box's left, top, right and bottom."""
        return self.lefts[box.column], self.tops[box.row], self.right(box.column), self.tops[box.row] + box.height()


def drawn_zone(grid, zone):
    column, row, wide, high, text = zone
    left, top = grid.lefts[column] - PAD, grid.tops[row] - ZONE_HEAD
    width, height = grid.right(column + wide - 1) + PAD - left, grid.bottom(row + high - 1) + PAD - top
    yield f'<rect x="{left:g}" y="{top:g}" width="{width:g}" height="{height:g}" fill="#f6f3ea" stroke="#c9bf9f"/>'
    yield text_at(left + 6, top + LINE - 2, text, ' font-style="italic"')


def drawn_box(grid, box):
    left, top, right, bottom = grid.place(box)
    yield f'<rect x="{left:g}" y="{top:g}" width="{right - left:g}" height="{bottom - top:g}" rx="3" {STYLE}/>'
    for at, (text, more) in enumerate(box.texts()):
        yield text_at(left + PAD, top + LINE * (at + 1) - 1, text, more)


def drawn_arrow(grid, arrow):
    """A line from edge to edge: across between boxes of one row, upright between those of one column."""
    one, other, sign, text = arrow
    left, top, right, bottom = grid.place(one)
    its_left, its_top, its_right, its_bottom = grid.place(other)
    if one.row == other.row:
        start, end = (right, its_left) if left < its_left else (left, its_right)
        level = min(bottom, its_bottom) - LINE
        way = f"M{start:g} {level:g}H{end:g}"
        label = text_at((start + end) / 2, level - 5, text, ' text-anchor="middle"')
    else:
        start, end = (bottom, its_top) if top < its_top else (top, its_bottom)
        middle = (left + right) / 2
        way = f"M{middle:g} {start:g}V{end:g}"
        label = text_at(middle + 6, (start + end) / 2 + 4, text)
    head = ' marker-end="url(#head)"' if sign != "--" else ""
    yield f'<path d="{way}" fill="none" stroke="#333333"{head}/>'
    if text:
        yield label


HEAD = (
    '<marker id="head" viewBox="0 0 8 8" refX="8" refY="4" markerWidth="8" markerHeight="8" orient="auto">'
    '<path d="M0 0L8 4L0 8z" fill="#333333"/></marker>'
)


def drawn(picture):
    grid = Grid(picture)
    parts = [f"<title>{picture.title}</title>", HEAD]
    parts += [text_at(EDGE, EDGE + 4, picture.title, ' font-weight="bold"')]
    for draw, things in ((drawn_zone, picture.zones), (drawn_arrow, picture.arrows), (drawn_box, picture.boxes.values())):
        parts += [part for it in things for part in draw(grid, it)]
    width = max(grid.right(len(grid.widths) - 1) + PAD, len(picture.title) * (LETTER + 1)) + EDGE
    return svg(width, grid.bottom(len(grid.heights) - 1) + PAD + EDGE, parts) + "\n"


def leads_to(crate, name):
    """The definitions to which a definition or the clauses of a public call lead, or None of another name."""
    if places := public_calls().get((crate, name)):
        return {it for pairs, words in places for it in reached([text for _, text in pairs], words)}
    for key in known():
        if key[1] == name and key[0].split(".")[0] == crate:
            lines, words = known()[key]
            return reached(["\n".join(lines)], words)
    return None


def wrong_names(picture):
    for box in picture.boxes.values():
        if box.crate and box.crate not in crates():
            yield f"there is no crate {box.crate}"
        elif box.crate:
            words = words_of_crate(box.crate).words
            yield from (f"{box.crate} has no {it}" for it in box.names if not set(re.findall(r"\w+", it)) <= words)


def wrong_arrows(picture):
    for one, other, sign, _ in picture.arrows:
        if sign == "->" and one.crate and other.crate:
            led = [it for it in (leads_to(one.crate, name) for name in one.names) if it is not None]
            wanted = [it for it in known() if it[1] in other.names and it[0].split(".")[0] == other.crate]
            what = f"{one.names[0]} of {one.crate} to {other.names[0]} of {other.crate}"
            if led and wanted and not any(it in found for found in led for it in wanted):
                yield f"nothing leads from {what}"
            if one.crate != other.crate and other.crate not in all_below(crates(), one.crate):
                yield f"{one.crate} doesn't depend on {other.crate}"


def faults():
    for picture in pictures():
        yield from (f"{picture.name}: {it}" for it in (*wrong_names(picture), *wrong_arrows(picture)))
        path = f"{FOLDER}/{picture.name}.svg"
        if not is_there(path) or read(path) != drawn(picture):
            yield f"{path} differs from what is drawn: `.ci/tree pictures --write` draws it"


def main(words):
    if words == ["--write"]:
        for picture in pictures():
            with open(os.path.join(TOP, FOLDER, f"{picture.name}.svg"), "w", encoding="utf-8") as it:
                it.write(drawn(picture))
        return 0
    if words != ["--check"]:
        sys.exit(__doc__)
    wrong = list(faults())
    print("\n".join([*(f"pictures: {it}" for it in wrong), f"pictures: {len(pictures())} pictures, {len(wrong)} wrong"]))
    return int(bool(wrong))
