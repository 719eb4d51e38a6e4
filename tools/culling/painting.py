"""Pictures of frames: depths in grey, objects as frames in the colour of their verdict."""
import math

from .outlines import Outlines
from .png import png_of

COLOURS = {"visible": (70, 200, 90), "occluded": (235, 70, 60)}
NOTHING, DARKEST, BRIGHTEST = 12, 36, 250


def shades(rows, top):
    """Depths as rows of grey bytes: each doubling of the distance is as much darker, and what has no depth is darkest.

    The darkest shade is that of the farthest thing, or of 1,000 near distances where that is nearer."""
    depths = sorted({depth for row in rows for depth in row if depth})
    if not depths:
        return [bytes([NOTHING]) * len(row) for row in rows]
    low = math.log(max(depths[0], top / 1000))
    span = math.log(depths[-1]) - low or 1.0
    tones = {0: NOTHING}
    for depth in depths:
        share = max(0.0, (math.log(depth) - low) / span)
        tones[depth] = round(DARKEST + share * (BRIGHTEST - DARKEST))
    return [bytes(map(tones.__getitem__, row)) for row in rows]


def grey_png(rows, top):
    """The depths alone."""
    return png_of(len(rows[0]), shades(rows, top), 1)


def coloured_png(rows, scene, frame, verdicts):
    """The depths, and of each object that is visible or occluded its rectangle."""
    grey = shades(rows, scene.top)
    lines = [bytearray(byte for shade in row for byte in (shade, shade, shade)) for row in grey]
    outlines = Outlines(scene, frame)
    found = [(verdict, outlines.of(thing)) for verdict, thing in zip(verdicts, scene.objects) if verdict in COLOURS]
    tint_all(lines, [rectangle for verdict, rectangle in found if rectangle and verdict == "occluded"])
    # what is visible is painted over what is occluded
    for painted in ("occluded", "visible"):
        for verdict, rectangle in found:
            if rectangle and verdict == painted:
                frame_in(lines, rectangle, bytes(COLOURS[verdict]))
    return png_of(len(rows[0]), [bytes(line) for line in lines], 3)


def tint_all(lines, rectangles):
    """Mixes a third of the occluded colour into the pixels that lie in some of the rectangles."""
    for y, line in enumerate(lines):
        inside = bytearray(len(line) // 3)
        for x0, y0, x1, y1 in rectangles:
            if y0 <= y < y1:
                inside[x0:x1] = b"\1" * (x1 - x0)
        for x, is_inside in enumerate(inside):
            if is_inside:
                mixed = zip(line[3 * x : 3 * x + 3], COLOURS["occluded"])
                line[3 * x : 3 * x + 3] = bytes((2 * grey + part) // 3 for grey, part in mixed)


def frame_in(lines, rectangle, colour):
    """Paints the edge pixels of a rectangle."""
    x0, y0, x1, y1 = rectangle
    for y in {y0, y1 - 1}:
        lines[y][3 * x0 : 3 * x1] = colour * (x1 - x0)
    for y in range(y0, y1):
        for x in (x0, x1 - 1):
            lines[y][3 * x : 3 * x + 3] = colour
