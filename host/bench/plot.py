#!/usr/bin/env python3
"""Draws throughput by message length as an SVG, both axes logarithmic.

    plot.py SWEEP OUT

SWEEP has a line for each point: name, bytes, MiB/s, with tabs between. The plot brings its own background, light or
dark as the reader's system has it, so it can stand on any page.
"""
import math
import sys
from xml.sax.saxutils import escape

WIDTH, HEIGHT = 860, 440
LEFT, TOP, RIGHT, BOTTOM = 70, 44, 590, 390  # the plot's frame; the legend stands to its right

# Colours for the light and the dark background, and a dash pattern; ours are solid and wide.
STYLES = {
    "rvghash, fast path": ("#c2410c", "#fb923c", "", 3),
    "rvghash, plain path": ("#1d4ed8", "#60a5fa", "", 3),
    "plain C, bit by bit": ("#0e7490", "#22d3ee", "6 3", 1.6),
    "BearSSL ctmul64": ("#15803d", "#4ade80", "", 1.6),
    "BearSSL ctmul": ("#4d7c0f", "#a3e635", "2 3", 1.6),
    "libgcrypt, hardware features off": ("#7e22ce", "#c084fc", "", 1.6),
    "OpenSSL without PCLMULQDQ": ("#be185d", "#f472b6", "8 3 2 3", 1.6),
    "OpenSSL with PCLMULQDQ": ("#57534e", "#d6d3d1", "3 3", 1.6),
}
OTHER = ("#57534e", "#d6d3d1", "1 2", 1.6)


def read_points(path):
    """Name to its list of (bytes, MiB/s), in the file's order. A point that noise made negative is left out."""
    series = {}
    with open(path, encoding="utf-8") as lines:
        for line in lines:
            name, length, speed = line.rstrip("\n").split("\t")
            points = series.setdefault(name, [])
            if float(speed) > 0:
                points.append((int(length), float(speed)))
    return {name: points for name, points in series.items() if points}


class Axis:
    """A logarithmic scale from low..high to the pixels first..last."""

    def __init__(self, low, high, first, last):
        self.low, self.high, self.first, self.last = low, high, first, last

    def at(self, value):
        share = math.log(value / self.low) / math.log(self.high / self.low)
        return round(self.first + share * (self.last - self.first), 1)


def length_text(length):
    for unit, name in ((1 << 20, " MiB"), (1 << 10, " KiB")):
        if length >= unit:
            return f"{length // unit}{name}"
    return f"{length} B"


def speed_text(speed):
    return f"{speed:,.0f}" if speed >= 1 else f"{speed:g}"


def style_rules(names):
    """The style sheet: one class for each series, and the second set of colours for a dark background."""
    light = [".back{fill:#ffffff}", ".ink{fill:#1f2328}", ".grid{stroke:#d0d7de}", ".frame{stroke:#57606a}"]
    dark = [".back{fill:#161b22}", ".ink{fill:#e6edf3}", ".grid{stroke:#30363d}", ".frame{stroke:#8b949e}"]
    for number, name in enumerate(names):
        day, night, dash, width = STYLES.get(name, OTHER)
        light.append(f".s{number}{{stroke:{day};stroke-width:{width};stroke-dasharray:{dash or 'none'};fill:none}}")
        light.append(f".d{number}{{fill:{day}}}")
        dark.append(f".s{number}{{stroke:{night}}}")
        dark.append(f".d{number}{{fill:{night}}}")
    return "\n".join(light) + "\n@media (prefers-color-scheme: dark){\n" + "\n".join(dark) + "\n}"


def text(x, y, words, anchor="middle", more=""):
    return f'<text class="ink" x="{x}" y="{y}" text-anchor="{anchor}"{more}>{escape(words)}</text>'


def line(kind, x1, y1, x2, y2):
    return f'<line class="{kind}" x1="{x1}" y1="{y1}" x2="{x2}" y2="{y2}"/>'


def draw_lengths(axis):
    length = axis.low
    while length <= axis.high:
        x = axis.at(length)
        yield line("grid", x, TOP, x, BOTTOM)
        yield text(x, BOTTOM + 18, length_text(length))
        length *= 4
    yield text((LEFT + RIGHT) / 2, BOTTOM + 40, "message length")


def draw_speeds(axis):
    decade = axis.low
    while decade <= axis.high * 1.001:
        y = axis.at(decade)
        yield line("grid", LEFT, y, RIGHT, y)
        yield text(LEFT - 8, y + 4, speed_text(decade), "end")
        for step in range(2, 10):
            if decade * step < axis.high:
                y = axis.at(decade * step)
                yield line("frame", LEFT, y, LEFT + 4, y)
        decade *= 10
    middle = (TOP + BOTTOM) / 2
    yield text(18, middle, "MiB/s", more=f' transform="rotate(-90 18 {middle})"')


def draw_series(number, points, xs, ys):
    places = [(xs.at(length), ys.at(speed)) for length, speed in points]
    yield f'<polyline class="s{number}" points="{" ".join(f"{x},{y}" for x, y in places)}"/>'
    for x, y in places:
        yield f'<circle class="d{number}" cx="{x}" cy="{y}" r="2.2"/>'


def draw_legend(series):
    """Fastest at the longest message first, as the lines stand at the right edge."""
    order = sorted(enumerate(series), key=lambda entry: -series[entry[1]][-1][1])
    for place, (number, name) in enumerate(order):
        y = TOP + 14 + 24 * place
        yield line(f"s{number}", RIGHT + 16, y, RIGHT + 46, y)
        yield f'<circle class="d{number}" cx="{RIGHT + 31}" cy="{y}" r="2.2"/>'
        yield text(RIGHT + 54, y + 4, name, "start")


def draw(series):
    lengths = [length for points in series.values() for length, _ in points]
    speeds = [speed for points in series.values() for _, speed in points]
    xs = Axis(min(lengths), max(lengths), LEFT, RIGHT)
    low, high = math.floor(math.log10(min(speeds))), math.ceil(math.log10(max(speeds)))
    ys = Axis(10.0 ** low, 10.0 ** max(high, low + 1), BOTTOM, TOP)
    title = "GHASH throughput by message length, a new key for each message"
    yield (f'<svg xmlns="http://www.w3.org/2000/svg" viewBox="0 0 {WIDTH} {HEIGHT}" '
           f'width="{WIDTH}" height="{HEIGHT}" role="img">')
    yield f"<title>{title}</title>"
    yield f"<style>\ntext{{font:12px sans-serif}}\n{style_rules(series)}\n</style>"
    yield f'<rect class="back" width="{WIDTH}" height="{HEIGHT}" rx="8"/>'
    yield text(LEFT, 26, title, "start", ' style="font-size:15px"')
    yield from draw_lengths(xs)
    yield from draw_speeds(ys)
    yield f'<rect class="frame" x="{LEFT}" y="{TOP}" width="{RIGHT - LEFT}" height="{BOTTOM - TOP}" fill="none"/>'
    for number, points in enumerate(series.values()):
        yield from draw_series(number, points, xs, ys)
    yield from draw_legend(series)
    yield "</svg>"


def main():
    if len(sys.argv) != 3:
        sys.exit("usage: plot.py SWEEP OUT")
    series = read_points(sys.argv[1])
    if not series:
        sys.exit(f"plot.py: no points in {sys.argv[1]}")
    with open(sys.argv[2], "w", encoding="utf-8") as out:
        out.write("\n".join(draw(series)) + "\n")


main()
