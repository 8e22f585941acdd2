"""The picture of `bench/run cores --plot`: for which grain of work more cores pay."""
import math
import os

from measure import ROOT

PICTURE = os.path.join(ROOT, "docs", "cores.svg")
WIDTH, HEIGHT = 720, 400
LEFT, RIGHT, TOP, BOTTOM = 60, 690, 30, 340
COLOURS = {2: "#c60", 4: "#06c"}
FONT = 'font-family="sans-serif" font-size="13"'


def break_even(points):
    """From how many units on more cores pay: where the line through the points, over the logarithm of the units, comes to 1 for the last
    time. None where it is above 1 from the first point on, or not at the last one."""
    for (few, less), (many, more) in reversed(list(zip(points, points[1:]))):
        if more < 1:
            return None
        if less < 1:
            part = (1 - less) / (more - less)
            return math.exp(math.log(few) + part * (math.log(many) - math.log(few)))
    return None


def rounded(units):
    """Units in two digits."""
    size = 10 ** max(0, math.floor(math.log10(units)) - 1)
    return f"{round(units / size) * size:,}"


class Axes:
    """Where units of work and speed-ups stand in the picture."""

    def __init__(self, lines):
        units = [point[0] for points in lines.values() for point in points]
        self.least, self.greatest = math.log(min(units)), math.log(max(units))
        self.top = max(2, math.ceil(max(point[1] for points in lines.values() for point in points)))

    def x(self, units):
        return round(LEFT + (RIGHT - LEFT) * (math.log(units) - self.least) / (self.greatest - self.least), 1)

    def y(self, speed):
        return round(BOTTOM - (BOTTOM - TOP) * speed / self.top, 1)


def text(x, y, words, colour="#000", anchor="middle"):
    return f'<text x="{x}" y="{y}" {FONT} fill="{colour}" text-anchor="{anchor}">{words}</text>'


def line(x1, y1, x2, y2, colour, more=""):
    return f'<line x1="{x1}" y1="{y1}" x2="{x2}" y2="{y2}" stroke="{colour}"{more}/>'


def grid(axes, units):
    """The two axes, with one core as a line."""
    for speed in range(axes.top + 1):
        y = axes.y(speed)
        yield line(LEFT, y, RIGHT, y, "#333" if speed == 1 else "#ddd")
        yield text(LEFT - 10, y + 4, speed, anchor="end")
    for count in units:
        yield line(axes.x(count), TOP, axes.x(count), BOTTOM, "#ddd")
        yield text(axes.x(count), BOTTOM + 20, f"{count:,}")
    yield text((LEFT + RIGHT) / 2, BOTTOM + 42, "units of each of four branches in a tick")
    yield text(LEFT, TOP - 12, "times as fast as one core", anchor="start")
    yield text(RIGHT, axes.y(1) - 6, "one core", anchor="end")


def drawn(axes, cores, points, place):
    """The line of so many cores, and where it comes to 1."""
    colour = COLOURS[cores]
    path = " ".join(f"{axes.x(units)},{axes.y(speed)}" for units, speed in points)
    yield f'<polyline points="{path}" fill="none" stroke="{colour}" stroke-width="2"/>'
    for units, speed in points:
        yield f'<circle cx="{axes.x(units)}" cy="{axes.y(speed)}" r="3" fill="{colour}"/>'
    at = break_even(points)
    yield text(LEFT + 16, TOP + 20 + 20 * place, f"{cores} cores" + (f": pay from {rounded(at)} units on" if at else ""), colour, "start")
    if at:
        x, y = axes.x(at), axes.y(1)
        yield line(x, y, x, BOTTOM, colour, ' stroke-dasharray="4 3"')
        yield f'<circle cx="{x}" cy="{y}" r="5" fill="#fff" stroke="{colour}" stroke-width="2"/>'


def picture(lines):
    """The lines of the picture, of the points (units, times as fast as one core) of each number of cores."""
    axes = Axes(lines)
    yield f'<svg xmlns="http://www.w3.org/2000/svg" width="{WIDTH}" height="{HEIGHT}" viewBox="0 0 {WIDTH} {HEIGHT}">'
    yield f'<rect width="{WIDTH}" height="{HEIGHT}" fill="#fff"/>'
    yield from grid(axes, sorted({point[0] for points in lines.values() for point in points}))
    for place, (cores, points) in enumerate(sorted(lines.items())):
        yield from drawn(axes, cores, points, place)
    yield "</svg>"


def write_picture(lines):
    """Writes the picture to where the pages show it."""
    with open(PICTURE, "w", encoding="utf-8") as file:
        file.writelines(f"{each}\n" for each in picture(lines))
    print(f"the picture is in {os.path.relpath(PICTURE, ROOT)}")
