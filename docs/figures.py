#!/usr/bin/env python3
"""Draws the figures of docs/ALGORITHM.md: a command's bytes, spans of columns, a cell's words, bins and workers over
time, frames side by side; for docs/PICTURE.md a piece, a pixel and a ray; and for README.md the times along a path.

usage: docs/figures.py bytes|spans|cell|turns|windows|picture|paths [PAGE] > docs/NAME.svg

The turns are computed by the rule that docs/ALGORITHM.md tells, for the pieces and the times below, and so are the
spans and the frames; the words of the cell are packed as docs/WORKER_DEFINITIONS.md tells it. The piece is certified as
docs/PICTURE.md tells it. The times are those of the table in docs/PERFORMANCE.md."""
import math
import pathlib
import re
import sys

STYLE = """
  .panel { fill: #ffffff } .none { fill: #e6eaef } .one { fill: #cfdff1 } .two { fill: #f3b36b }
  .three { fill: #bfe3c0 } .line { stroke: #1b1f24; fill: none } .thin { stroke: #9aa3ad; fill: none }
  .ink { fill: #1b1f24 }
  text { font: 13px sans-serif; fill: #1b1f24 } .strong { font-weight: bold } .small { font-size: 11px }
  .code { font-family: monospace }
  @media (prefers-color-scheme: dark) {
    .panel { fill: #14171c } .none { fill: #262c34 } .one { fill: #294766 } .two { fill: #b8641a }
    .three { fill: #2f6b39 } .line { stroke: #e8ebef } .thin { stroke: #5c6672 } .ink { fill: #e8ebef }
    text { fill: #e8ebef }
  }"""


def rect(x, y, width, height, shade, more=""):
    return f'<rect class="{shade}" x="{x:g}" y="{y:g}" width="{width:g}" height="{height:g}"{more}/>'


def text(x, y, words, shade="", anchor="start"):
    words = words.replace("&", "&amp;").replace("<", "&lt;")
    return f'<text class="{shade}" x="{x:g}" y="{y:g}" text-anchor="{anchor}">{words}</text>'


def line(x0, y0, x1, y1, shade="line", more=""):
    return f'<line class="{shade}" x1="{x0:g}" y1="{y0:g}" x2="{x1:g}" y2="{y1:g}"{more}/>'


def arrow(x0, y0, x1, y1, shade="line"):
    """A line with a head, level or upright."""
    yield line(x0, y0, x1, y1, shade)
    across, down = (x1 > x0) - (x1 < x0), (y1 > y0) - (y1 < y0)
    for side in (-4, 4):
        yield line(x1 - 7 * across + side * down, y1 - 7 * down + side * across, x1, y1, shade)


# Bins and workers over time.

BATCHES, AHEAD, TURN = 32, 1, 128
# Of each bin the pieces that a batch has for it.
PIECES = (12, 30, 18, 44)
# What a batch costs the submitter, and what a worker's start, its visit to the lock and a piece cost.
SUBMIT, STARTS, LOCK, DRAW = 8, (4, 14), 2, 0.28


def turns():
    """The turns: a worker, a bin, when it began and ended, and the batches from a first to before an end."""
    done, free_at = [0] * len(PIECES), [0] * len(PIECES)
    clocks = dict(enumerate(STARTS))
    while min(done) < BATCHES:
        worker = min(clocks, key=clocks.get)
        now = clocks[worker]
        submitted = min(BATCHES, AHEAD + int(now / SUBMIT))
        waiting = [b for b in range(len(PIECES)) if free_at[b] <= now and done[b] < submitted]
        if not waiting:
            clocks[worker] = now + 1
            continue
        taken = min(waiting, key=lambda b: done[b])
        first, drawn = done[taken], 0
        while done[taken] < submitted and drawn < TURN:
            drawn += PIECES[taken]
            done[taken] += 1
        clocks[worker] = free_at[taken] = now + LOCK + DRAW * drawn
        yield worker, taken, now + LOCK, clocks[worker], first, done[taken]


def turns_figure():
    left, top, height = 92, 58, 36
    made = list(turns())
    end = max(turn[3] for turn in made)
    scale = 760 / end
    yield 880, 354, "Bins that workers take in turn, over time"
    yield text(24, 30, "One frame: 32 batches of pieces, four bins, two workers. Each bar is a turn, with the batches"
               " that are drawn in it.", "strong")
    yield text(left - 12, top + 18, "submitter", anchor="end")
    for batch in range(BATCHES):
        begin, stop = (0, 0) if batch < AHEAD else ((batch - AHEAD) * SUBMIT, (batch + 1 - AHEAD) * SUBMIT)
        yield rect(left + begin * scale, top + 4, max(1, (stop - begin) * scale - 1), height - 16, "three")
    for number, pieces in enumerate(PIECES):
        y = top + (number + 1) * (height + 8)
        yield text(left - 12, y + 22, f"bin {number}", anchor="end")
        yield rect(left, y, end * scale, height, "none")
    for worker, number, begin, stop, first, past in made:
        x, y = left + begin * scale, top + (number + 1) * (height + 8)
        yield rect(x, y, (stop - begin) * scale, height, ("one", "two")[worker])
        yield rect(x, y, (stop - begin) * scale, height, "line")
        told = f"{first}" if past == first + 1 else f"{first}-{past - 1}"
        if (stop - begin) * scale > 7 * len(told):
            yield text(x + (stop - begin) * scale / 2, y + 22, told, "small", "middle")
    y = top + 5 * (height + 8) + 14
    yield from arrow(left, y, left + end * scale, y, "thin")
    yield text(left + end * scale, y + 18, "time", "small", "end")
    for place, shade, told in ((0, "three", "the submitter bins a batch"), (230, "one", "worker 0 draws"),
                               (390, "two", "worker 1 draws"), (550, "none", "the bin waits")):
        yield rect(left + place, y + 28, 16, 16, shade)
        yield text(left + place + 24, y + 41, told)


# The words of a cell.

# Of each of eight subtiles the reference, the working depth and the mask.
SUBTILES = ((0, 100, 0x0F0F0F0F), (0, 100, 0x00FFFFFF), (100, 0, 0), (100, 240, 0x0000C0FC),
            (0, 0, 0), (0, 100, 0x0F0F0F0F), (100, 0, 0), (100, 0, 0))
COUNT = 3


def word(x, y, width, name, told, shade):
    yield rect(x, y, width, 44, shade)
    yield rect(x, y, width, 44, "line")
    yield text(x + width / 2, y + 18, name, "small", "middle")
    yield text(x + width / 2, y + 35, told, "small code", "middle")


def words_of_cell():
    yield text(24, 30, "A cell has thirteen words. One writer stores all of them at once.", "strong")
    yield from word(24, 44, 92, "count", str(COUNT), "two")
    for number, (reference, working, _) in enumerate(SUBTILES):
        told = f"{working << 24 | reference:012X}"
        yield from word(116 + number * 92, 44, 92, f"layers of {number}", told, "one")
    for number in range(0, 8, 2):
        (_, _, even), (_, _, odd) = SUBTILES[number:number + 2]
        told = f"{odd << 32 | even:016X}"
        yield from word(392 + number // 2 * 115, 100, 115, f"masks of {number + 1} and {number}", told, "three")


def bits_of_subtile(left, top):
    reference, working, mask = SUBTILES[0]
    for x0, x1 in ((116, left), (208, left + 300)):
        yield line(x0, 88, x1, top, "thin")
    for x0, x1 in ((449.5, left + 320), (507, left + 560)):
        yield line(x0, 144, x1, top, "thin")
    parts = (("working: bits 47 to 24", f"{working:06X}", 0, 150, "one"),
             ("reference: 23 to 0", f"{reference:06X}", 150, 150, "one"),
             ("mask: 31 to 0", f"{mask:08X}", 320, 240, "three"))
    for name, told, place, width, shade in parts:
        x = left + place
        yield rect(x, top, width, 30, shade)
        yield rect(x, top, width, 30, "line")
        yield text(x + width / 2, top + 20, told, "code", "middle")
        yield text(x + width / 2, top + 46, name, "small", "middle")
    for sample in range(32):
        x, y = left + 586 + sample % 8 * 29, top - 14 + sample // 8 * 18
        yield rect(x, y, 28, 17, "one" if mask >> sample & 1 else "none")
        yield text(x + 14, y + 13, str(working if mask >> sample & 1 else reference), "small", "middle")
    yield text(left + 586, top + 76, "subtile 0: the bounds of its 32 samples", "small")


def loads_of_cell(top):
    """A writer's stores and a reader's loads over time."""
    yield text(24, top, "A load that meets a store is made again: what is read is the tile after exactly k pieces.",
               "strong")
    yield text(86, top + 40, "writer", anchor="end")
    yield text(86, top + 88, "reader", anchor="end")
    stores = ((130, 3), (330, 4), (560, 5))
    ends = [x for x, _ in stores[1:]] + [850]
    yield rect(98, top + 22, 32, 28, "none")
    yield text(114, top + 40, "2", "small", "middle")
    for (x, count), end in zip(stores, ends):
        yield rect(x, top + 22, 60, 28, "two")
        yield text(x + 30, top + 40, "store", "small", "middle")
        yield rect(x + 60, top + 22, end - x - 60, 28, "none")
        yield text((x + 60 + end) / 2, top + 40, f"after {count} pieces", "small", "middle")
    for x, width, told, shade in ((215, 80, "load: k = 3", "three"), (350, 60, "again", "none"),
                                  (412, 80, "load: k = 4", "three"), (690, 80, "load: k = 5", "three")):
        yield rect(x, top + 70, width, 28, shade)
        yield rect(x, top + 70, width, 28, "line", ' stroke-dasharray="4 3"' if shade == "none" else "")
        yield text(x + width / 2, top + 88, told, "small", "middle")


def cell_figure():
    yield 880, 400, "The thirteen words of a tile's cell, and loads beside stores"
    yield from words_of_cell()
    yield from bits_of_subtile(24, 182)
    yield from loads_of_cell(290)


# The life of a command's bytes.


def box(x, y, width, name, told, shade):
    yield rect(x, y, width, 46, shade, ' rx="6"')
    yield rect(x, y, width, 46, "line", ' rx="6"')
    yield text(x + width / 2, y + 19, name, "strong", "middle")
    yield text(x + width / 2, y + 36, told, "small", "middle")


def bytes_figure():
    yield 880, 400, "What becomes of a command's bytes"
    yield text(24, 30, "maskcull cull < town.msoc > town.report", "strong code")
    for x, width, name, told, shade in ((24, 160, "command line", "cull and its options", "none"),
                                        (250, 160, "Command", "with what its options say", "one")):
        yield from box(x, 48, width, name, told, shade)
    yield from arrow(184, 71, 250, 71)
    for x, width, name, told, shade in ((24, 160, "standard input", "bytes", "none"),
                                        (250, 160, "Scene", "tables of whole numbers", "one")):
        yield from box(x, 118, width, name, told, shade)
    yield from arrow(184, 141, 250, 141)
    yield text(217, 133, "read", "small", "middle")
    yield from arrow(330, 94, 330, 118)
    yield rect(24, 192, 832, 116, "line", ' rx="8" stroke-dasharray="6 4"')
    yield text(126, 210, "for each frame", "small")
    steps = (("clip vertices", "x, y, w by a camera"), ("pieces", "triangles on the screen"),
             ("tiles", "two depths and a mask"), ("verdicts", "one an object"), ("lines", "text of the report"))
    for number, (name, told) in enumerate(steps):
        x = 36 + 164 * number
        yield from box(x, 224, 148, name, told, "one")
        if number:
            yield from arrow(x - 16, 247, x, 247)
    yield from arrow(330, 164, 330, 178)
    yield line(330, 178, 110, 178)
    yield from arrow(110, 178, 110, 224)
    yield text(36, 296, "Threads take whole frames while there are enough of them. Else they share each step, and the"
               " next begins when it is done.", "small")
    yield from box(692, 334, 148, "standard output", "town.report", "three")
    yield from arrow(766, 270, 766, 334)
    yield text(756, 324, "some lines at a time", "small", "end")
    yield from box(520, 48, 200, "standard error", "a line that says why", "two")
    yield from box(748, 48, 108, "status", "2 to 7; 0 is done", "two")
    yield from arrow(720, 71, 748, 71)
    for y, told in ((71, "usage refused"), (141, "scene refused, read fault")):
        if y == 71:
            yield from arrow(410, y, 520, y, "thin")
        else:
            yield line(410, y, 600, y, "thin")
            yield from arrow(600, y, 600, 94, "thin")
        yield text(418, y - 8, told, "small")
    yield line(836, 224, 836, 178, "thin")
    yield line(836, 178, 660, 178, "thin")
    yield from arrow(660, 178, 660, 94, "thin")
    yield text(670, 170, "report fault, out of memory", "small")


# Frames side by side.

# What the frames of a path cost, and what a worker's start and the lines of a frame cost.
FRAMES, WORKERS, WINDOW_START, WRITE = (46, 60, 52, 58, 74, 50, 66, 55, 48, 64), 4, 5, 6


def windows():
    """The bars: a worker, a frame, when it began and ended; the lines of a frame as of no worker."""
    whole = len(FRAMES) - len(FRAMES) % WORKERS
    free = [WINDOW_START * (worker + 1) for worker in range(WORKERS)]
    for frame in range(whole):
        # whoever comes takes the next
        worker = min(range(WORKERS), key=free.__getitem__)
        yield worker, frame, free[worker], free[worker] + FRAMES[frame]
        free[worker] += FRAMES[frame]
    now = max(free)
    for frame in range(whole):
        yield None, frame, now, now + WRITE
        now += WRITE
    for frame in range(whole, len(FRAMES)):
        share = FRAMES[frame] / WORKERS + WINDOW_START
        for worker in range(WORKERS):
            yield worker, frame, now + WINDOW_START * (worker + 1), now + WINDOW_START * (worker + 1) + share
        now += WINDOW_START * WORKERS + share
        yield None, frame, now, now + WRITE
        now += WRITE


def windows_figure():
    left, top, height = 92, 58, 36
    bars = list(windows())
    scale = 760 / max(bar[3] for bar in bars)
    yield 880, 354, "Frames side by side, over time"
    whole = len(FRAMES) - len(FRAMES) % WORKERS
    yield text(24, 30, f"A path of {len(FRAMES)} frames by {WORKERS} workers: a window of {whole} frames, and what"
               " is left is shared.", "strong")
    rows = [*range(WORKERS), None]
    for place, worker in enumerate(rows):
        y = top + place * (height + 8)
        yield text(left - 12, y + 22, "report" if worker is None else f"worker {worker}", anchor="end")
        yield rect(left, y, 760, height, "none")
    for worker, frame, begin, end in bars:
        y, shade = top + rows.index(worker) * (height + 8), "three" if worker is None else ("one", "two")[frame % 2]
        yield rect(left + begin * scale, y, (end - begin) * scale, height, shade)
        yield rect(left + begin * scale, y, (end - begin) * scale, height, "line")
        yield text(left + (begin + end) / 2 * scale, y + 22, str(frame), "small", "middle")
    y = top + 5 * (height + 8) + 14
    yield from arrow(left, y, left + 760, y, "thin")
    yield text(left + 760, y + 18, "time", "small", "end")
    yield rect(left, y + 28, 16, 16, "one")
    yield rect(left + 18, y + 28, 16, 16, "two")
    yield text(left + 42, y + 41, "a frame with its number, or a share of it")
    yield rect(left + 340, y + 28, 16, 16, "three")
    yield text(left + 364, y + 41, "its lines are written, in the order of frames")


# Spans of columns.

# A piece on a row of three tiles: points in sixteenths of a pixel, clockwise.
CORNERS, SPAN_COLUMNS, SPAN_ROWS, PIXEL = ((100, -60), (1240, 50), (420, 190)), 96, 8, 8


def columns_inside(row):
    """The first column of a row of samples inside the piece, and the one behind the last."""
    y, first, end = 16 * row + 8, 0, SPAN_COLUMNS
    for (ax, ay), (bx, by) in zip(CORNERS, CORNERS[1:] + CORNERS[:1]):
        # where the edge crosses the row, in columns of samples
        crossing = (ax + (bx - ax) * (y - ay) / (by - ay) - 8) / 16
        if by < ay:
            first = max(first, math.ceil(crossing))
        else:
            end = min(end, math.ceil(crossing))
    return first, max(first, end)


def spans_figure():
    left, top, height = 56, 66, 18
    spans = [columns_inside(row) for row in range(SPAN_ROWS)]
    yield 880, 300, "The spans of columns that a piece has in a row of tiles"
    yield text(24, 30, "A row of three tiles: on each of its eight rows of samples the piece has one span of columns.",
               "strong")
    for row, (first, end) in enumerate(spans):
        y = top + row * height
        yield text(left - 8, y + 13, str(row), "small", "end")
        yield rect(left, y, SPAN_COLUMNS * PIXEL, height - 1, "none")
        yield rect(left + first * PIXEL, y, (end - first) * PIXEL, height - 1, "two")
        yield text(left + SPAN_COLUMNS * PIXEL + 8, y + 13, f"{first} to {end}", "small")
    bottom = top + SPAN_ROWS * height
    for column in range(0, SPAN_COLUMNS + 1, 8):
        more = ' stroke-width="2"' if column % 32 == 0 else ' stroke-dasharray="2 3"'
        yield line(left + column * PIXEL, top, left + column * PIXEL, bottom, "line", more)
    for y in (top, top + 4 * height, bottom):
        yield line(left, y, left + SPAN_COLUMNS * PIXEL, y)
    for tile in range(3):
        yield text(left + (32 * tile + 16) * PIXEL, top - 8, f"tile {tile}", "small", "middle")
    clip = [(left + x / 16 * PIXEL, top + y / 16 * height) for x, y in CORNERS]
    yield f'<clipPath id="row">{rect(left, top, SPAN_COLUMNS * PIXEL, bottom - top, "none")}</clipPath>'
    points = " ".join(f"{x:g},{y:g}" for x, y in clip)
    yield f'<polygon class="line" points="{points}" stroke-width="2" clip-path="url(#row)"/>'
    y, least, greatest = bottom + 22, min(first for first, _ in spans), max(end for _, end in spans)
    middle = left + (least + greatest) / 2 * PIXEL
    yield from arrow(middle, y, left + least * PIXEL, y, "thin")
    yield from arrow(middle, y, left + greatest * PIXEL, y, "thin")
    yield text(middle, y + 18, f"from the least first column, {least}, to the greatest end, {greatest}: only tiles"
               " between these may have samples", "small", "middle")
    yield text(left, y + 46, "A subtile's mask has a byte for each of its four rows: the bits from the row's first"
               " column on, without those from its end on.", "small")


# A piece within an exact triangle, and a ray.

# The triangle's corners in pixels, clockwise, and the half side of the squares in sixteenths.
EXACT, REACH, SIDE = ((0.3, 0.45), (9.6, 1.3), (3.1, 6.65)), 8, 38


def exact_forms():
    """Of each side of the triangle a form a x + b y + c in sixteenths, which isn't negative inside."""
    points = [(16 * x, 16 * y) for x, y in EXACT]
    for (ax, ay), (bx, by) in zip(points, points[1:] + points[:1]):
        yield ay - by, bx - ax, (by - ay) * ax - (bx - ax) * ay


def falls_by(form):
    """By how much a form falls over the square around a place."""
    return REACH * (abs(form[0]) + abs(form[1]))


def piece_corners():
    """Where the lines meet that are moved inward, half a sixteenth more than they have to, rounded to sixteenths."""
    forms = [(a, b, c - falls_by((a, b)) - (abs(a) + abs(b)) / 2) for a, b, c in exact_forms()]
    for (a0, b0, c0), (a1, b1, c1) in zip([forms[-1]] + forms[:-1], forms):
        part = a0 * b1 - a1 * b0
        yield round((b0 * c1 - b1 * c0) / part), round((a1 * c0 - a0 * c1) / part)


def polygon(points, shade, more=""):
    places = " ".join(f"{x:g},{y:g}" for x, y in points)
    return f'<polygon class="{shade}" points="{places}"{more}/>'


def squares_of_piece(left, top):
    """The grid, the triangle, the piece and the squares around the samples that it covers."""
    corners = list(piece_corners())
    if any(a * x + b * y + c < falls_by((a, b)) for a, b, c in exact_forms() for x, y in corners):
        sys.exit("a corner of the piece isn't certified")
    sides = list(zip(corners, corners[1:] + corners[:1]))
    samples = [(16 * x + 8, 16 * y + 8) for y in range(7) for x in range(10)]
    covered = [(x, y) for x, y in samples
               if all((bx - ax) * (y - ay) - (by - ay) * (x - ax) > 0 for (ax, ay), (bx, by) in sides)]
    yield rect(left, top, 10 * SIDE, 7 * SIDE, "none")
    for x, y in covered:
        yield rect(left + (x - REACH) * SIDE / 16, top + (y - REACH) * SIDE / 16, SIDE, SIDE, "three")
    for column in range(11):
        yield line(left + column * SIDE, top, left + column * SIDE, top + 7 * SIDE, "thin")
    for row in range(8):
        yield line(left, top + row * SIDE, left + 10 * SIDE, top + row * SIDE, "thin")
    yield polygon([(left + x * SIDE / 16, top + y * SIDE / 16) for x, y in corners], "two", ' fill-opacity="0.7"')
    yield polygon([(left + x * SIDE, top + y * SIDE) for x, y in EXACT], "line", ' stroke-width="2"')
    for x, y in samples:
        radius = 3 if (x, y) in covered else 1.5
        yield f'<circle class="ink" cx="{left + x * SIDE / 16:g}" cy="{top + y * SIDE / 16:g}" r="{radius}"/>'


def ray_of_pixel(left, top):
    """From above: the eye, a pixel of the screen, the rays through it, a triangle and a box."""
    eye, screen, width = (left, top + 150), left + 92, 14
    pixel = (eye[1] - 2 * width, eye[1] - width)
    far = left + 400

    def along(y, x):
        """Where the ray through a place of the screen is, at an x."""
        return eye[1] + (y - eye[1]) * (x - eye[0]) / (screen - eye[0])

    yield polygon([eye, (far, along(pixel[0], far)), (far, along(pixel[1], far))], "three")
    for row in range(-5, 5):
        yield rect(screen - 3, eye[1] + row * width, 6, width - 1, "two" if row == -2 else "none")
    yield line(left + 50, top + 40, left + 50, top + 250, "thin", ' stroke-dasharray="5 4"')
    yield text(left + 50, top + 268, "near distance", "small", "middle")
    yield text(screen + 2, top + 72, "screen", "small", "middle")
    wall = ((left + 188, top + 42), (left + 228, top + 236))
    yield line(*wall[0], *wall[1], "line", ' stroke-width="4"')
    yield text(wall[1][0], top + 254, "exact triangle", "small", "middle")
    yield rect(left + 296, top + 44, 78, 64, "one")
    yield rect(left + 296, top + 44, 78, 64, "line")
    yield text(left + 335, top + 36, "box", "small", "middle")
    yield line(left + 296, top + 108, left + 296, top + 250, "thin", ' stroke-dasharray="5 4"')
    yield text(left + 296, top + 268, "its least w", "small", "middle")
    middle = sum(pixel) / 2
    yield line(*eye, far, along(middle, far), "line")
    (ax, ay), (bx, by) = wall
    slope = (middle - eye[1]) / (screen - eye[0])
    hit = (ay - eye[1] + slope * eye[0] - (by - ay) / (bx - ax) * ax) / (slope - (by - ay) / (bx - ax))
    yield f'<circle class="ink" cx="{hit:g}" cy="{along(middle, hit):g}" r="4"/>'
    yield f'<circle class="ink" cx="{eye[0]:g}" cy="{eye[1]:g}" r="4"/>'
    yield text(eye[0], eye[1] + 20, "eye", "small", "middle")
    yield text(left + 150, along(pixel[1], left + 150) + 16, "rays", "small")
    yield from arrow(left, top + 286, left + 120, top + 286, "thin")
    yield text(left + 128, top + 290, "w", "small")


def picture_figure():
    yield 880, 404, "A piece within an exact triangle, and the rays through a pixel"
    yield text(24, 30, "On the screen, by a reach of 8", "strong")
    yield from squares_of_piece(24, 46)
    yield text(450, 30, "From above", "strong")
    yield from ray_of_pixel(464, 46)
    for y, shade, told in ((332, "two", "the piece, whose corners are certified"),
                           (358, "three", "the squares around its samples, within the triangle")):
        yield rect(24, y, 16, 16, shade)
        yield text(48, y + 13, told)
    yield text(464, 371, "Each ray of the pixel meets the triangle before the box.")


# The times along a path.

PAGE = pathlib.Path(__file__).resolve().parent / "PERFORMANCE.md"
PATH_HEAD = re.compile(r"\| ms a frame, along a path of 64 frames \| 1 thread \| (\d+ threads) \|")
PATH_ROW = re.compile(r"\| ([^|]+) \| ([\d.]+)\*? \| ([\d.]+)\*? \|")


def path_times():
    """The number of threads of the table, and of each row its scene and milliseconds by one thread and by all."""
    page = pathlib.Path(*sys.argv[2:3] or [PAGE]).read_text()
    head = PATH_HEAD.search(page)
    table = page[head.end():].split("\n\n")[0]
    return head[1], [found.groups() for row in table.splitlines() if (found := PATH_ROW.match(row))]


def paths_figure():
    (threads, rows), left, top, height = path_times(), 330, 56, 50
    most = max(float(time) for _, *times in rows for time in times)
    bottom = top + height * len(rows)
    yield 880, bottom + 54, "Milliseconds a frame along a path, by one thread and by four"
    yield text(24, 30, "Milliseconds a frame along a path of 64 frames, without reading the scene", "strong")
    for number, (scene, *times) in enumerate(rows):
        y = top + number * height
        yield text(left - 12, y + 24, scene, anchor="end")
        for place, (time, shade) in enumerate(zip(times, ("one", "two"))):
            width = 470 * float(time) / most
            yield rect(left, y + 18 * place, width, 16, shade)
            yield text(left + width + 8, y + 18 * place + 13, time, "small")
    yield line(left, top - 4, left, bottom - 8, "thin")
    for place, shade, told in ((0, "one", "1 thread"), (110, "two", f"{threads}, each on frames of its own")):
        yield rect(left + place, bottom + 14, 16, 16, shade)
        yield text(left + place + 24, bottom + 27, told)


FIGURES = {"bytes": bytes_figure, "spans": spans_figure, "cell": cell_figure, "turns": turns_figure,
           "windows": windows_figure, "picture": picture_figure, "paths": paths_figure}


def main():
    if len(sys.argv) not in (2, 3) or sys.argv[1] not in FIGURES:
        sys.exit(__doc__)
    (width, height, title), *parts = FIGURES[sys.argv[1]]()
    size = f'viewBox="0 0 {width} {height}" width="{width}" height="{height}"'
    print(f'<svg xmlns="http://www.w3.org/2000/svg" {size}>\n<title>{title}</title>\n<style>{STYLE}\n</style>')
    print(rect(0, 0, width, height, "panel", ' rx="8"'))
    print("\n".join(parts))
    print("</svg>")


if __name__ == "__main__":
    main()
