"""Draws a trace as a picture: plot.py NAME.. < TRACE > PICTURE.svg

Each NAME is the path of a quantity or a signal as the lines U and N of the trace have it, or that path without the top's name. Each has a
panel of its own over one axis of time. A quantity is a line from solution to solution, a signal a line of steps; of a signal whose values
are 0 and 1 the value before its first event is the other one, of any other signal it isn't drawn. It needs Python alone.
"""

import math
import sys
from xml.sax.saxutils import escape

WIDTH, LEFT, RIGHT, PANEL, GAP, BOTTOM = 760, 70, 16, 120, 26, 34
TIME_UNITS = [(10**12, "s"), (10**9, "ms"), (10**6, "us"), (10**3, "ns"), (1, "ps")]
WORDS = {"false": 0.0, "true": 1.0}


class Curve:
    """What is drawn in one panel: the points of a name, in order of time."""

    def __init__(self, name):
        self.name, self.is_signal, self.points = name, False, []

    def is_at(self, path):
        return self.name in (path, path.partition(".")[2])

    def corners(self, end):
        """Returns the corners of the line, up to the end of the run."""
        if not self.is_signal or not self.points:
            return self.points
        values = {value for _, value in self.points}
        corners = [(0, 1.0 - self.points[0][1])] if values <= {0.0, 1.0} else []
        for time, value in self.points:
            corners += [(time, corners[-1][1] if corners else value), (time, value)]
        return corners + [(end, corners[-1][1])]


def read(lines, curves):
    """Gives the curves their points, and returns the time of the last line that has one."""
    unknowns, signals, end = {}, {}, 0
    for line in lines:
        kind, *fields = line.split()
        if kind in ("U", "N"):
            for curve in curves:
                if curve.is_at(fields[1]):
                    (unknowns if kind == "U" else signals)[int(fields[0])] = curve
                    curve.is_signal = kind == "N"
        if kind in ("P", "S", "E"):
            end = int(fields[0])
        if kind == "P":
            for number, curve in unknowns.items():
                curve.points.append((end, float(fields[2 + number])))
        elif kind == "S" and int(fields[2]) in signals:
            value = fields[3]
            signals[int(fields[2])].points.append((end, WORDS[value] if value in WORDS else float(value)))
    return end


def marks(low, high):
    """Returns three to seven round numbers from low to high."""
    rough = (high - low) / 6
    power = 10.0 ** math.floor(math.log10(rough))
    step = next(power * factor for factor in (1, 2, 5, 10) if power * factor >= rough)
    return [step * place for place in range(math.ceil(low / step), math.floor(high / step) + 1)]


def panel(curve, top, end, unit):
    """Yields the parts of one panel, whose upper edge is at `top`."""
    corners = curve.corners(end)
    low, high = min(value for _, value in corners), max(value for _, value in corners)
    margin = (high - low) * 0.08 or 1.0
    low, high = low - margin, high + margin
    across = lambda time: LEFT + (WIDTH - LEFT - RIGHT) * time / (end or 1)
    down = lambda value: top + PANEL * (high - value) / (high - low)
    for value in marks(low, high):
        yield f'<path class="grid" d="M{LEFT} {down(value):.1f}H{WIDTH - RIGHT}"/>'
        yield f'<text x="{LEFT - 6}" y="{down(value) + 4:.1f}" text-anchor="end">{value:g}</text>'
    for time in marks(0, end / unit):
        yield f'<path class="grid" d="M{across(time * unit):.1f} {top}V{top + PANEL}"/>'
    yield f'<rect class="frame" x="{LEFT}" y="{top}" width="{WIDTH - LEFT - RIGHT}" height="{PANEL}"/>'
    yield f'<text x="{LEFT}" y="{top - 6}" class="name">{escape(curve.name)}</text>'
    line = " ".join(f"{across(time):.1f},{down(value):.1f}" for time, value in corners)
    yield f'<polyline class="curve" points="{line}"/>'


def picture(curves, end):
    """Yields the lines of the picture."""
    unit, unit_name = next((it for it in TIME_UNITS if end >= 2 * it[0]), TIME_UNITS[-1])
    height = (GAP + PANEL) * len(curves) + BOTTOM
    yield f'<svg xmlns="http://www.w3.org/2000/svg" width="{WIDTH}" height="{height}" viewBox="0 0 {WIDTH} {height}" role="img">'
    yield f"<title>{escape(', '.join(curve.name for curve in curves))} over time</title>"
    yield "<style>text{font:12px sans-serif;fill:#444}.name{font-weight:bold;fill:#111}.grid{stroke:#ddd}.frame{fill:none;stroke:#888}"
    yield ".curve{fill:none;stroke:#1f5f99;stroke-width:1.5;stroke-linejoin:round}</style>"
    yield f'<rect width="{WIDTH}" height="{height}" fill="#fff"/>'
    for number, curve in enumerate(curves):
        yield from panel(curve, GAP + (GAP + PANEL) * number, end, unit)
    for time in marks(0, end / unit):
        place = LEFT + (WIDTH - LEFT - RIGHT) * time * unit / end
        yield f'<text x="{place:.1f}" y="{height - BOTTOM + 16}" text-anchor="middle">{time:g}</text>'
    yield f'<text x="{WIDTH - RIGHT}" y="{height - 4}" text-anchor="end">time in {unit_name}</text>'
    yield "</svg>"


def main(names):
    curves = [Curve(name) for name in names]
    end = read(sys.stdin, curves)
    lacking = [curve.name for curve in curves if not curve.points]
    if lacking or not curves:
        sys.exit(f"nothing to draw of {', '.join(lacking) or 'no name'}\n{__doc__}")
    print("\n".join(picture(curves, end)))


main(sys.argv[1:])
