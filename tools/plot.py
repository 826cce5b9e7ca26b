"""The plot of speed, docs/speed.svg, which is drawn from a table of docs/SPEED.md."""

import html
import re

from common import ROOT

PAGE, PLOT = ROOT / "docs/SPEED.md", ROOT / "docs/speed.svg"

# The table, by its heading, and the column of the bars.
TABLE, COLUMN = "Calls of the Cargo package", "20 to 60 bytes"
HEAD = "Time of a call of the Cargo package"
BELOW = "on paths of 20 to 60 bytes; a shorter bar is faster, and at 1.0 both take the same time"

# Places and sizes, in pixels.
WIDTH, MARGIN, LEFT, TOP, ROW, BAR = 780, 20, 230, 104, 24, 16
UNIT = 420  # the length of a bar of 1.0
MARKS = [0, 0.25, 0.5, 0.75]
FONT = "font-family='system-ui, sans-serif'"

# What is drawn, with its colours on a light page and on a dark one. The ground is part of the plot.
COLOURS = {
    "ground": ("fill", "#ffffff", "#0d1117"),
    "words": ("fill", "#1f2328", "#e6edf3"),
    "faint": ("fill", "#59636e", "#9198a1"),
    "mark": ("stroke", "#d1d9e0", "#3d444d"),
    "same": ("stroke", "#1f2328", "#e6edf3"),
    "faster": ("fill", "#2f6fb5", "#4c8dd6"),
    "slower": ("fill", "#bc4c00", "#db6d28"),
}


def rows_of(page):
    """The rows of the table: each with its name and its ratio, the smallest ratio first."""
    section = page.split(f"\n## {TABLE}\n", 1)[1].split("\n## ", 1)[0]
    head, _, *rows = ([cell.strip() for cell in line.split("|")[1:-1]] for line in section.split("\n") if line.startswith("|"))
    at = head.index(COLUMN)
    return sorted(((row[0], float(row[at].split()[0])) for row in rows), key=lambda row: row[1])


def drawn(element, kind, attributes, inside=None):
    """An element of a kind, in its colour on a light page."""
    what, light, _ = COLOURS[kind]
    start = f"<{element} class='{kind}' {what}='{light}' {attributes}"
    return f"{start}/>" if inside is None else f"{start}>{inside}</{element}>"


def words(kind, x, y, size, inside, attributes=""):
    return drawn("text", kind, f"x='{x}' y='{y}' {FONT} font-size='{size}'{attributes}", inside)


def with_code(name):
    """A name of the table, with its code in a font of its own."""
    return re.sub(r"`([^`]*)`", r"<tspan font-family='monospace'>\1</tspan>", html.escape(name))


def upright(kind, x, bottom, attributes):
    return drawn("path", kind, f"d='M{x} {TOP - 6}V{bottom}' {attributes}")


def plot_of(page):
    """The plot for a page."""
    rows = rows_of(page)
    bottom = TOP + ROW * len(rows)
    height = bottom + MARGIN
    dark = "".join(f".{kind}{{{what}:{colour}}}" for kind, (what, _, colour) in COLOURS.items())
    lines = [
        f"<svg xmlns='http://www.w3.org/2000/svg' width='{WIDTH}' height='{height}' viewBox='0 0 {WIDTH} {height}' role='img'>",
        f"<title>{HEAD}, {BELOW}</title>",
        f"<style>@media (prefers-color-scheme:dark){{{dark}}}</style>",
        drawn("rect", "ground", f"width='{WIDTH}' height='{height}' rx='6'"),
        words("words", MARGIN, 34, 18, HEAD, " font-weight='600'"),
        words("faint", MARGIN, 58, 14, BELOW),
    ]
    for mark in MARKS:
        x = LEFT + round(UNIT * mark)
        name = words("faint", x, TOP - 12, 13, f"{mark:g}", " text-anchor='middle'")
        lines += [upright("mark", x, bottom, "stroke-width='1'"), name]
    for number, (name, ratio) in enumerate(rows):
        y, length = TOP + ROW * number, round(UNIT * ratio)
        bar = f"x='{LEFT}' y='{y + (ROW - BAR) // 2}' width='{length}' height='{BAR}'"
        lines += [
            words("words", LEFT - 8, y + 17, 14, with_code(name), " text-anchor='end'"),
            drawn("rect", "slower" if ratio > 1 else "faster", bar),
            words("words", LEFT + length + 6, y + 17, 14, f"{ratio:.2f}"),
        ]
    name = words("words", LEFT + UNIT, TOP - 12, 14, "1.0: the original", " text-anchor='middle'")
    lines += [upright("same", LEFT + UNIT, bottom, "stroke-width='2'"), name]
    return "\n".join([*lines, "</svg>", ""])


def write_plot():
    PLOT.write_text(plot_of(PAGE.read_text()))


def faults_of_plot():
    """Where the plot isn't the one of the page."""
    if not PLOT.is_file() or PLOT.read_text() != plot_of(PAGE.read_text()):
        yield f"it isn't drawn from {PAGE.relative_to(ROOT)}: run tools/speed --plot"
