"""Pictures of figures: panels with logarithmic axes, as SVG."""

import itertools
import math
from dataclasses import dataclass, field

WIDTH, HEIGHT = 460, 330
LEFT, RIGHT, TOP, BOTTOM = 58, 34, 30, 44
KEY_HEIGHT = 18
COLOURS = ("#1b6ca8", "#c2410c", "#15803d", "#7e22ce", "#a16207", "#be123c", "#0f766e", "#525252")
# A circle, a square, a diamond and a triangle around a point.
MARKS = (
    "m-2.8 0a2.8 2.8 0 1 0 5.6 0a2.8 2.8 0 1 0-5.6 0z",
    "m-2.6-2.6h5.2v5.2h-5.2z",
    "m0-3.7l3.7 3.7l-3.7 3.7l-3.7-3.7z",
    "m0-3.6l3.4 6h-6.8z",
)


@dataclass
class Panel:
    title: str
    across: str
    up: str
    # By name, the points of the product and of the plain program.
    lines: dict = field(default_factory=dict)


def escaped(text):
    return text.replace("&", "&amp;").replace("<", "&lt;").replace(">", "&gt;")


def text_at(x, y, text, more=""):
    return f'<text x="{x:.1f}" y="{y:.1f}" {more}>{escaped(text)}</text>'


def number(value):
    return f"{value:,.0f}" if value >= 1 else f"{value:g}"


def decades(least, most):
    """The powers of ten around the range."""
    first, last = math.floor(math.log10(least)), math.ceil(math.log10(most))
    return [10.0**power for power in range(first, max(last, first + 1) + 1)]


class Axes:
    """Where numbers stand in a panel."""

    def __init__(self, panel):
        points = [point for both in panel.lines.values() for line in both for point in line]
        self.ticks = sorted({x for x, _ in points})
        self.levels = decades(min(y for _, y in points), max(y for _, y in points))
        self.first, self.last = math.log(self.ticks[0]), math.log(self.ticks[-1])
        self.low, self.high = math.log(self.levels[0]), math.log(self.levels[-1])

    def across(self, x):
        part = (math.log(x) - self.first) / ((self.last - self.first) or 1)
        return LEFT + part * (WIDTH - LEFT - RIGHT)

    def up(self, y):
        part = (math.log(y) - self.low) / (self.high - self.low)
        return HEIGHT - BOTTOM - part * (HEIGHT - TOP - BOTTOM)


def drawn_axes(panel, axes):
    yield text_at(LEFT, 18, panel.title, 'font-weight="bold"')
    for x in axes.ticks:
        place = axes.across(x)
        yield f'<path d="M{place:.1f} {TOP}V{HEIGHT - BOTTOM}" stroke="#e5e7eb"/>'
        yield text_at(place, HEIGHT - BOTTOM + 18, number(x), 'text-anchor="middle"')
    for y in axes.levels:
        place = axes.up(y)
        yield f'<path d="M{LEFT} {place:.1f}H{WIDTH - RIGHT}" stroke="#e5e7eb"/>'
        yield text_at(LEFT - 6, place + 4, number(y), 'text-anchor="end"')
    middle = (LEFT + WIDTH - RIGHT) / 2
    yield text_at(middle, HEIGHT - 10, panel.across, 'text-anchor="middle"')
    turned = f'text-anchor="middle" transform="rotate(-90 14 {HEIGHT / 2})"'
    yield text_at(14, HEIGHT / 2, panel.up, turned)


@dataclass
class Style:
    colour: str
    mark: str


PROGRAMS = Style("#111", MARKS[0])


def drawn_line(points, style, is_plain):
    """A line through places, with a mark on each: filled ones of the product, open ones of the plain program."""
    path = " ".join(f"{x:.1f},{y:.1f}" for x, y in points)
    dashes = ' stroke-dasharray="5 4"' if is_plain else ""
    yield f'<polyline points="{path}" fill="none" stroke="{style.colour}" stroke-width="1.8"{dashes}/>'
    marks = "".join(f"M{x:.1f} {y:.1f}{style.mark}" for x, y in points)
    yield f'<path d="{marks}" fill="{"#fff" if is_plain else style.colour}" stroke="{style.colour}"/>'


def drawn_panel(panel, styles):
    axes = Axes(panel)
    yield from drawn_axes(panel, axes)
    for name, both in panel.lines.items():
        for is_plain, points in ((True, both[1]), (False, both[0])):
            places = [(axes.across(x), axes.up(y)) for x, y in points]
            yield from drawn_line(places, styles[name], is_plain)


def drawn_key(styles, top, columns):
    """The names in a number of columns, and what both kinds of lines are."""
    rows = math.ceil(len(styles) / columns)
    entries = [(place // rows, place % rows, name, style, False) for place, (name, style) in enumerate(styles.items())]
    entries.append((0, rows + 0.5, "the product", PROGRAMS, False))
    entries.append((0, rows + 1.5, "the plain program", PROGRAMS, True))
    for column, row, text, style, is_plain in entries:
        x, y = LEFT + column * WIDTH, top + row * KEY_HEIGHT
        yield from drawn_line([(x, y), (x + 15, y), (x + 30, y)], style, is_plain)
        yield text_at(x + 40, y + 4, text)
    yield text_at(LEFT, top + (rows + 2.5) * KEY_HEIGHT + 4, "Times are of the processor. The axes are logarithmic.")


def picture(panels, columns=2):
    """The panels in rows of a number, with a key below them."""
    names = list(dict.fromkeys(name for panel in panels for name in panel.lines))
    styles = {name: Style(*each) for name, each in zip(names, zip(itertools.cycle(COLOURS), itertools.cycle(MARKS)))}
    columns = min(columns, len(panels))
    rows = math.ceil(len(panels) / columns)
    key = KEY_HEIGHT * (math.ceil(len(names) / columns) + 4)
    width, height = WIDTH * columns, HEIGHT * rows + key
    parts = [
        f'<svg xmlns="http://www.w3.org/2000/svg" viewBox="0 0 {width} {height}" width="{width}" height="{height}" '
        'font-family="sans-serif" font-size="12" fill="#111">',
        f'<rect width="{width}" height="{height}" fill="#fff"/>',
    ]
    for place, panel in enumerate(panels):
        x, y = place % columns * WIDTH, place // columns * HEIGHT
        parts += [f'<g transform="translate({x} {y})">', *drawn_panel(panel, styles), "</g>"]
    return "\n".join([*parts, *drawn_key(styles, HEIGHT * rows + 14, columns), "</svg>", ""])
