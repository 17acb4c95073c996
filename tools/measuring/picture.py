"""Draws lines over two axes as SVG. Each line has its name at its end, so that no legend has to be looked up."""
import dataclasses
import math
from xml.sax.saxutils import escape

from measuring.allocators import title

COLOURS = {
    "ours": "#d1350f",
    "original": "#e69f00",
    "glibc": "#000000",
    "jemalloc": "#0072b2",
    "mimalloc": "#00795a",
    "tcmalloc": "#a3478b",
}
# The height of a line of text, and the room for the names at the right of a panel.
LETTER, NAMES = 14, 156
# The room for the numbers at the left, for the names below, and for a panel's title.
LEFT, BELOW, ABOVE = 88, 62, 34


@dataclasses.dataclass
class Axis:
    label: str
    ticks: list  # of pairs: a value, and what is written there
    least: float
    most: float
    logarithmic: bool = False

    def share(self, value):
        """How far a value lies from the axis's begin to its end."""
        if not self.logarithmic:
            return (value - self.least) / (self.most - self.least)
        return math.log(max(value, self.least) / self.least) / math.log(self.most / self.least)


@dataclasses.dataclass
class Panel:
    title: str
    lines: dict  # of names to lists of points
    ends: dict = dataclasses.field(default_factory=dict)  # what is written behind a line's name


def text(x, y, words, anchor="start", **more):
    attributes = "".join(f" {name.replace('_', '-')}='{value}'" for name, value in more.items())
    return f"<text x='{x:.1f}' y='{y:.1f}' text-anchor='{anchor}'{attributes}>{escape(words)}</text>"


def apart(wanted):
    """Heights for names, near the wanted ones and one letter apart, from the top down."""
    placed, last = {}, -math.inf
    for name, y in sorted(wanted.items(), key=lambda item: item[1]):
        placed[name] = last = max(y, last + LETTER + 1)
    return placed


class Frame:
    """The place of a panel on the page."""

    def __init__(self, left, top, width, height, across, up):
        self.left, self.top, self.width, self.height = left + LEFT, top + ABOVE, width - LEFT - NAMES, height - ABOVE - BELOW
        self.across, self.up = across, up

    def x(self, value):
        return self.left + self.width * self.across.share(value)

    def y(self, value):
        return self.top + self.height * (1 - self.up.share(value))

    def axes(self):
        right, bottom = self.left + self.width, self.top + self.height
        for value, words in self.up.ticks:
            yield f"<path d='M{self.left:.1f} {self.y(value):.1f}H{right:.1f}' stroke='#dddddd'/>"
            yield text(self.left - 8, self.y(value) + 5, words, "end")
        for value, words in self.across.ticks:
            yield f"<path d='M{self.x(value):.1f} {self.top:.1f}V{bottom + 5:.1f}' stroke='#dddddd'/>"
            yield text(self.x(value), bottom + 20, words, "middle")
        yield f"<path d='M{self.left:.1f} {self.top:.1f}V{bottom:.1f}H{right:.1f}' fill='none' stroke='#555555'/>"
        yield text(self.left + self.width / 2, bottom + 42, self.across.label, "middle")
        middle = self.top + self.height / 2
        yield text(self.left - 68, middle, self.up.label, "middle", transform=f"rotate(-90 {self.left - 68:.1f} {middle:.1f})")

    def line(self, name, points):
        path = "L".join(f"{self.x(x):.1f} {self.y(y):.1f}" for x, y in points)
        width, dashes = (3.5, "") if name == "ours" else (2, " stroke-dasharray='6 4'" if name == "original" else "")
        yield f"<path d='M{path}' fill='none' stroke='{COLOURS[name]}' stroke-width='{width}'{dashes}/>"
        for x, y in points:
            yield f"<circle cx='{self.x(x):.1f}' cy='{self.y(y):.1f}' r='{width:.1f}' fill='{COLOURS[name]}'/>"

    def names(self, panel):
        ends = {name: self.y(points[-1][1]) for name, points in panel.lines.items()}
        right = self.x(max(x for points in panel.lines.values() for x, _ in points))
        for name, y in apart(ends).items():
            yield f"<path d='M{right + 4:.1f} {ends[name]:.1f}L{right + 16:.1f} {y:.1f}' fill='none' stroke='{COLOURS[name]}'/>"
            words = f"{title(name)} {panel.ends.get(name, '')}".strip()
            yield text(right + 20, y + 5, words, fill=COLOURS[name], font_weight="bold" if name == "ours" else "normal")

    def panel(self, panel):
        if panel.title:
            yield text(self.left, self.top - 12, panel.title, font_weight="bold", font_size=15)
        yield from self.axes()
        for name in sorted(panel.lines, key=lambda name: name == "ours"):
            yield from self.line(name, panel.lines[name])
        yield from self.names(panel)


def page(heading, below, panels, across, up, columns=1, size=(860, 460)):
    """The panels in rows, under a heading; `below` says in small letters how they were measured."""
    width, height = size
    rows = -(-len(panels) // columns)
    whole = (width * columns, 44 + height * rows + 20 * len(below) + 8)
    yield "<?xml version='1.0' encoding='UTF-8'?>"
    yield f"<svg xmlns='http://www.w3.org/2000/svg' viewBox='0 0 {whole[0]} {whole[1]}' font-family='sans-serif' font-size='{LETTER}'>"
    yield f"<title>{escape(heading)}</title>"
    yield f"<rect width='{whole[0]}' height='{whole[1]}' fill='white'/>"
    yield text(16, 28, heading, font_size=19, font_weight="bold")
    for n, panel in enumerate(panels):
        frame = Frame(width * (n % columns), 36 + height * (n // columns), width, height, across, up)
        yield from frame.panel(panel)
    for n, words in enumerate(below):
        yield text(16, 44 + height * rows + 20 * n + 8, words, fill="#555555", font_size=13)
    yield "</svg>"


def write(path, *words, **more):
    path.parent.mkdir(parents=True, exist_ok=True)
    path.write_text("\n".join(page(*words, **more)) + "\n")
    print(f"wrote {path}", flush=True)
