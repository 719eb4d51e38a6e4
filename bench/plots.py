#!/usr/bin/env python3
"""Draws what bench/frames.py measured: milliseconds a frame against triangles, a line for each number of threads.

usage: bench/frames.py PROGRAM --triangles 1000,5000,10000,20000,40000,65536 | bench/plots.py --machine TEXT > OUT.svg

It reads the lines of bench/frames.py from standard input and writes an SVG. The text stands below the plot, and says
on which machine they were measured."""
import argparse
import html
import math
import re
import sys

LINE = re.compile(r" *(\d+) triangles, \d+ rectangles, (\d+) workers: ([\d.]+) ms\n?")
COLOURS = ("#3b6fb6", "#d1603d", "#4f9d69", "#8a5fb0", "#b08a2e", "#5a5f66")
WIDTH, HEIGHT, LEFT, RIGHT, TOP, BOTTOM = 640, 340, 56, 160, 20, 66


def measured(lines):
    """For each number of workers the pairs of triangles and milliseconds."""
    rows = {}
    for line in lines:
        found = LINE.fullmatch(line)
        if not found:
            sys.exit(f"plots.py: not a line of bench/frames.py: {line.rstrip()}")
        triangles, workers, milliseconds = found.groups()
        rows.setdefault(int(workers), []).append((int(triangles), float(milliseconds)))
    if not rows:
        sys.exit("plots.py: no lines of bench/frames.py on standard input")
    return {workers: sorted(points) for workers, points in sorted(rows.items())}


def round_step(most):
    """A step of 1, 2 or 5 times a power of ten, of which four to nine reach over a range."""
    power = 10.0 ** math.floor(math.log10(most / 4))
    return next(part * power for part in (1, 2, 5, 10) if most <= 9 * part * power)


class Axis:
    """Numbers from 0 on a stretch of the picture."""

    def __init__(self, most, begin, end):
        self.step = round_step(most)
        self.top = self.step * -(-most // self.step)
        self.begin, self.end = begin, end

    def at(self, number):
        return self.begin + (self.end - self.begin) * number / self.top

    def ticks(self):
        return [self.step * count for count in range(round(self.top / self.step) + 1)]


def text(x, y, words, anchor="middle", colour="#444"):
    return f'<text x="{x:.1f}" y="{y:.1f}" text-anchor="{anchor}" fill="{colour}">{html.escape(words)}</text>'


def line(x0, y0, x1, y1, colour):
    return f'<line x1="{x0:.1f}" y1="{y0:.1f}" x2="{x1:.1f}" y2="{y1:.1f}" stroke="{colour}"/>'


class Powers:
    """Some numbers on a stretch of the picture, the same factor as far apart everywhere."""

    def __init__(self, numbers, begin, end):
        self.numbers, self.begin, self.end = numbers, begin, end

    def at(self, number):
        first, last = self.numbers[0], self.numbers[-1]
        return self.begin + (self.end - self.begin) * math.log(number / first) / math.log(last / first)

    def ticks(self):
        return self.numbers


def grid(across, up, words):
    """The lines and numbers of both axes, and what they are of."""
    for number in up.ticks():
        yield line(LEFT, up.at(number), WIDTH - RIGHT, up.at(number), "#ddd")
        yield text(LEFT - 8, up.at(number) + 4, f"{number:g}", "end")
    for number in across.ticks():
        yield line(across.at(number), up.at(0), across.at(number), up.at(0) + 4, "#888")
        yield text(across.at(number), up.at(0) + 18, f"{round(number):,}")
    yield text((LEFT + WIDTH - RIGHT) / 2, up.at(0) + 36, words[0])
    yield text(LEFT, TOP - 6, words[1], "start")


def ends_apart(ends, least=14.0):
    """Heights for the words at the lines' ends, moved down so that none lies on another."""
    placed, last = {}, -least
    for key, height in sorted(ends.items(), key=lambda row: row[1]):
        last = placed[key] = max(height, last + least)
    return placed


def plot(rows, note, words=("triangles", "ms a frame"), has_powers=False):
    """The picture's text: of each line its name and its points. The words are those of the axes; the numbers across may
    be powers of one number."""
    numbers = sorted({point[0] for points in rows.values() for point in points})
    across = Powers(numbers, LEFT, WIDTH - RIGHT) if has_powers else Axis(numbers[-1], LEFT, WIDTH - RIGHT)
    up = Axis(max(point[1] for points in rows.values() for point in points), HEIGHT - BOTTOM, TOP)
    yield f'<svg xmlns="http://www.w3.org/2000/svg" viewBox="0 0 {WIDTH} {HEIGHT}" width="{WIDTH}" height="{HEIGHT}"'
    yield ' font-family="sans-serif" font-size="12">'
    yield f'<rect width="{WIDTH}" height="{HEIGHT}" fill="#fff"/>'
    yield from grid(across, up, words)
    ends = ends_apart({name: up.at(points[-1][1]) for name, points in rows.items()})
    for colour, (name, points) in zip(COLOURS * len(rows), rows.items()):
        places = [(across.at(number), up.at(milliseconds)) for number, milliseconds in points]
        corners = " ".join(f"{x:.1f},{y:.1f}" for x, y in places)
        yield f'<polyline points="{corners}" fill="none" stroke="{colour}" stroke-width="2"/>'
        yield from (f'<circle cx="{x:.1f}" cy="{y:.1f}" r="3" fill="{colour}"/>' for x, y in places)
        yield text(places[-1][0] + 10, ends[name] + 4, name, "start", colour)
    yield text(LEFT, HEIGHT - 10, note, "start", "#777")
    yield "</svg>"


def main():
    parser = argparse.ArgumentParser(description=__doc__, formatter_class=argparse.RawDescriptionHelpFormatter)
    parser.add_argument("--machine", default="", metavar="TEXT", help="on which machine it was measured")
    words = parser.parse_args()
    rows = measured(sys.stdin)
    named = {f"{workers} thread" + ("s" if workers > 1 else ""): points for workers, points in rows.items()}
    print("\n".join(plot(named, words.machine)))


if __name__ == "__main__":
    main()
