#!/usr/bin/env python3
"""Draws a tile with its subtiles, their two depths and their coverage masks, for docs/ALGORITHM.md.

usage: docs/tile.py > docs/tile.svg

The pieces and the rectangles are those below; coverage and the masked update are computed as docs/ALGORITHM.md tells
them. All pieces here are level, so the low bound of each is its nearness."""

PIXEL, LEFT, TOP, WIDTH, HEIGHT = 26, 24, 72, 880, 428
# Points in sixteenths of a pixel, clockwise, and a nearness.
BEHIND = [([(0, 0), (512, 0), (512, 128)], 8000), ([(0, 0), (512, 128), (0, 128)], 8000)]
IN_FRONT = ([(32, -96), (576, 32), (160, 224)], 20000)
PIECES = BEHIND + [IN_FRONT]
# Pixels from a first to before an end, and a nearness.
RECTANGLES = [((9, 1, 18, 7), 12000), ((25, 2, 31, 6), 12000)]

STYLE = """
  .panel { fill: #ffffff } .far { fill: #cfdff1 } .near { fill: #f3b36b } .grid { stroke: #ffffff; stroke-width: 1 }
  .line { stroke: #1b1f24; fill: none } .ink { fill: #1b1f24 }
  text { font: 13px sans-serif; fill: #1b1f24 } .strong { font-weight: bold }
  @media (prefers-color-scheme: dark) {
    .panel { fill: #14171c } .far { fill: #294766 } .near { fill: #b8641a } .grid { stroke: #14171c }
    .line { stroke: #e8ebef } .ink { fill: #e8ebef } text { fill: #e8ebef }
  }"""


def covers_edge(a, b, x, y):
    value = (b[0] - a[0]) * (y - a[1]) - (b[1] - a[1]) * (x - a[0])
    return value > 0 or value == 0 and (b[1] < a[1] or b[1] == a[1] and a[0] < b[0])


def coverage(points, subtile):
    """The samples of a subtile that a piece covers, by their numbers."""
    x0, y0 = subtile % 4 * 8, subtile // 4 * 4
    edges = list(zip(points, points[1:] + points[:1]))
    places = [(16 * (x0 + k % 8) + 8, 16 * (y0 + k // 8) + 8) for k in range(32)]
    return {k for k, (x, y) in enumerate(places) if all(covers_edge(a, b, x, y) for a, b in edges)}


def step(state, bound, covered):
    reference, working, samples = state
    if not covered or bound <= reference:
        return state
    if samples and bound - working > working - reference:
        samples = set()
    working = min(working, bound) if samples else bound
    samples = samples | covered
    return (working, 0, set()) if len(samples) == 32 else (reference, working, samples)


def state_of(subtile):
    state = (0, 0, set())
    for points, nearness in PIECES:
        state = step(state, nearness, coverage(points, subtile))
    return state


STATES = [state_of(subtile) for subtile in range(8)]


def bound(x, y):
    """The bound of the sample of a pixel."""
    reference, working, samples = STATES[y // 4 * 4 + x // 8]
    return working if y % 4 * 8 + x % 8 in samples else reference


def verdict(rectangle, nearness):
    x0, y0, x1, y1 = rectangle
    hidden = all(bound(x, y) > nearness for y in range(y0, y1) for x in range(x0, x1))
    return "occluded" if hidden else "visible"


def pixels():
    for y in range(8):
        for x in range(32):
            shade = "near" if bound(x, y) == 20000 else "far"
            left, top = LEFT + x * PIXEL, TOP + y * PIXEL
            yield f'<rect class="{shade} grid" x="{left}" y="{top}" width="{PIXEL}" height="{PIXEL}"/>'
            if y % 4 * 8 + x % 8 in STATES[y // 4 * 4 + x // 8][2]:
                yield f'<circle class="ink" cx="{left + PIXEL / 2:g}" cy="{top + PIXEL / 2:g}" r="3"/>'


def frames():
    for subtile in range(8):
        left, top = LEFT + subtile % 4 * 8 * PIXEL, TOP + subtile // 4 * 4 * PIXEL
        yield f'<rect class="line" stroke-width="2" x="{left}" y="{top}" width="{8 * PIXEL}" height="{4 * PIXEL}"/>'
        reference, working, samples = STATES[subtile]
        below = TOP + 8 * PIXEL + 20 if subtile > 3 else TOP - 46
        lines = [f"subtile {subtile}", f"reference {reference}"]
        lines.append(f"working {working} at {len(samples)} samples" if samples else "no working layer")
        for number, line in enumerate(lines):
            strong = ' class="strong"' if number == 0 else ""
            yield f'<text{strong} x="{left + 4}" y="{below + 18 * number}">{line}</text>'


def outlines():
    tile = f'x="{LEFT}" y="{TOP}" width="{32 * PIXEL}" height="{8 * PIXEL}"'
    yield f'<clipPath id="tile"><rect {tile}/></clipPath>'
    points = " ".join(f"{LEFT + x * PIXEL / 16:g},{TOP + y * PIXEL / 16:g}" for x, y in IN_FRONT[0])
    yield f'<polygon class="line" stroke-width="2" clip-path="url(#tile)" points="{points}"/>'
    for rectangle, nearness in RECTANGLES:
        x0, y0, x1, y1 = (PIXEL * number for number in rectangle)
        place = f'x="{LEFT + x0}" y="{TOP + y0}" width="{x1 - x0}" height="{y1 - y0}"'
        yield f'<rect class="line" stroke-width="3" stroke-dasharray="7 5" {place}/>'
        yield f'<rect class="panel" x="{LEFT + x0 + 8}" y="{TOP + y0 + 8}" width="76" height="22" rx="4"/>'
        yield f'<text class="strong" x="{LEFT + x0 + 14}" y="{TOP + y0 + 24}">{verdict(rectangle, nearness)}</text>'


def legend():
    y = TOP + 8 * PIXEL + 86
    yield f'<rect class="far" x="{LEFT}" y="{y - 13}" width="16" height="16"/>'
    yield f'<text x="{LEFT + 24}" y="{y}">a sample with the bound 8000</text>'
    yield f'<rect class="near" x="{LEFT + 260}" y="{y - 13}" width="16" height="16"/>'
    yield f'<text x="{LEFT + 284}" y="{y}">a sample with the bound 20000</text>'
    yield f'<circle class="ink" cx="{LEFT + 534}" cy="{y - 5}" r="3"/>'
    yield f'<text x="{LEFT + 548}" y="{y}">a sample in the coverage mask</text>'
    solid = "Solid: a piece with nearness 20000, drawn over a wall with nearness 8000."
    yield f'<text x="{LEFT}" y="{y + 24}">{solid}</text>'
    yield f'<text x="{LEFT}" y="{y + 44}">Dashed: two rectangles with nearness 12000 that are tested.</text>'


def main():
    size = f'viewBox="0 0 {WIDTH} {HEIGHT}" width="{WIDTH}" height="{HEIGHT}"'
    print(f'<svg xmlns="http://www.w3.org/2000/svg" {size}>')
    print(f"<title>A tile of eight subtiles after three pieces, and two rectangles</title>\n<style>{STYLE}\n</style>")
    print(f'<rect class="panel" width="{WIDTH}" height="{HEIGHT}" rx="8"/>')
    for part in (pixels, frames, outlines, legend):
        print("\n".join(part()))
    print("</svg>")


if __name__ == "__main__":
    main()
