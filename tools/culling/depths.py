"""The depth of each pixel of a frame: by a z-buffer of this file, or by a program's command `picture`.

The z-buffer draws the pieces that maskcull defines (docs/DEFINITIONS.md: clip coordinates, the near part, snapping,
coverage), in whole numbers, and keeps for each sample the greatest depth of the pieces that cover it, rounded up. So
"greater than a whole number" is the same for what is kept and for the depth itself. 0 is where nothing was drawn.
The rows of a picture run from the top."""
import subprocess

from .progress import watched
from .scene import NARROW_TOP

GUARD = 16384
DROPS_CLOCKWISE, DROPS_COUNTERCLOCKWISE = 1, 2


class Lens:
    """How a frame's clip vertices come to the screen."""

    def __init__(self, scene, is_object=False):
        self.width, self.height = scene.size
        self.near, self.far, self.top, self.is_object = scene.near, GUARD * scene.near, scene.top, is_object

    def is_past_guard(self, x, y, w):
        far = self.far
        return x > far or x < -far or y > far or y < -far or w > far or w < -far

    def snapped(self, x, y, w, scale=1):
        """The point in sixteenths of a pixel, and its nearness: of an object rounded up, else down."""
        across = (16 * self.width * (x + w) + w) // (2 * w)
        down = (16 * self.height * (w - y) + w) // (2 * w)
        nearness = self.top * self.near * scale
        return across, down, -(-nearness // w) if self.is_object else nearness // w

    def cut(self, a, b):
        """The point of the near plane between a vertex before it and one behind it, snapped."""
        p, q = a[2] - self.near, self.near - b[2]
        x, y, w = (p * v + q * u for u, v in zip(a, b))
        return self.snapped(x, y, w, a[2] - b[2])

    def near_part(self, a, b, c):
        """The snapped points of what of a triangle lies at the near distance or beyond: none, three or four."""
        near, points = self.near, []
        inside = [vertex[2] >= near for vertex in (a, b, c)]
        if sum(inside) == 3:
            return [self.snapped(*a), self.snapped(*b), self.snapped(*c)]
        sides = ((a, b, inside[0], inside[1]), (b, c, inside[1], inside[2]), (c, a, inside[2], inside[0]))
        for begin, end, begins_inside, ends_inside in sides:
            if begins_inside:
                points.append(self.snapped(*begin))
            if begins_inside != ends_inside:
                points.append(self.cut(begin, end) if begins_inside else self.cut(end, begin))
        return points

    def pieces(self, triangle, winding=0):
        """The pieces of a triangle of clip vertices: three points each, clockwise on the screen."""
        if any(self.is_past_guard(*vertex) for vertex in triangle):
            return []
        points = self.near_part(*triangle)
        made = (turned(points[0], *pair, winding) for pair in zip(points[1:], points[2:]))
        return [piece for piece in made if piece]

    def pieces_of_all(self, clips, triangles, winding=0):
        """The pieces of triangles by the numbers of their vertices, one triangle after another."""
        # most vertices are before the near plane and within the guard, and are shared: these are snapped once
        near, pieces = self.near, []
        points = [self.snapped(*v) if v[2] >= near and not self.is_past_guard(*v) else None for v in clips]
        for a, b, c in triangles:
            if points[a] and points[b] and points[c]:
                piece = turned(points[a], points[b], points[c], winding)
                if piece:
                    pieces.append(piece)
            else:
                pieces += self.pieces((clips[a], clips[b], clips[c]), winding)
        return pieces


def turned(a, b, c, winding):
    """Three points as a clockwise piece, or None where they have no area or the winding drops them."""
    area = (b[0] - a[0]) * (c[1] - a[1]) - (b[1] - a[1]) * (c[0] - a[0])
    if area > 0 and winding != DROPS_CLOCKWISE:
        return a, b, c
    if area < 0 and winding != DROPS_COUNTERCLOCKWISE:
        return a, c, b
    return None


def frame_pieces(scene, frame):
    """The pieces of a frame in the order of the scene's triangles."""
    lens, clips = Lens(scene), scene.clips(frame, scene.vertices)
    pieces, first = [], 0
    for count, winding in scene.batches:
        pieces += lens.pieces_of_all(clips, scene.occluders[first : first + count], winding)
        first += count
    return pieces


class Edges:
    """The three edges of a piece, as what is inside them along a row of samples."""

    def __init__(self, piece, is_object=False):
        a, b, c = piece
        self.rising, self.falling, self.level = [], [], []
        for (ax, ay, _), (bx, by, _) in ((a, b), (b, c), (c, a)):
            dx, dy = bx - ax, by - ay
            # an object touches what lies on its edges, an occluder covers it at a top and at a left edge
            bias = 0 if is_object or dy < 0 or (dy == 0 and dx > 0) else -1
            (self.rising if dy < 0 else self.falling if dy else self.level).append((ax, ay, dx, dy, bias))

    def span(self, row, width):
        """The pixels of a row that are inside: the first one, and the one behind the last."""
        down, begin, end = 16 * row + 8, 0, width
        for _, ay, dx, _, bias in self.level:
            if dx * (down - ay) + bias < 0:
                return 0, 0
        for ax, ay, dx, dy, bias in self.rising:
            begin = max(begin, -((dx * (down - ay) + bias - dy * (8 - ax)) // (-16 * dy)))
        for ax, ay, dx, dy, bias in self.falling:
            end = min(end, (dx * (down - ay) + bias - dy * (8 - ax)) // (16 * dy) + 1)
        return begin, end


def samples_between(places, count):
    """The rows or the columns, of so many, whose samples lie between the least and the greatest of some places."""
    return range(max(0, (min(places) + 7) // 16), min(count, (max(places) + 8) // 16))


def plane_of(piece):
    """The depth of a piece as (across x + down y + level) / area."""
    (ax, ay, an), (bx, by, bn), (cx, cy, cn) = piece
    area = (bx - ax) * (cy - ay) - (by - ay) * (cx - ax)
    across = an * (by - cy) + bn * (cy - ay) + cn * (ay - by)
    down = an * (cx - bx) + bn * (ax - cx) + cn * (bx - ax)
    level = an * (bx * cy - by * cx) + bn * (cx * ay - cy * ax) + cn * (ax * by - ay * bx)
    return across, down, level, area


def spans_of(piece, size, is_object=False):
    """For each row of samples that a piece has: the row, the first pixel, and the depths there, rounded up."""
    acrosses, downs, _ = zip(*piece)
    rows = samples_between(downs, size[1])
    if not rows or not samples_between(acrosses, size[0]):
        return
    across, down, level, area = plane_of(piece)
    edges, step = Edges(piece, is_object), -16 * across
    for row in rows:
        begin, end = edges.span(row, size[0])
        if begin < end:
            first = -(across * (16 * begin + 8) + down * (16 * row + 8) + level)
            if step:
                stop = first + step * (end - begin)
                yield row, begin, [-(number // area) for number in range(first, stop, step)]
            else:
                yield row, begin, [-(first // area)] * (end - begin)


def buffer_of(scene, frame):
    """The greatest depth at each sample of a frame, as rows of whole numbers, and the number of pieces."""
    width, height = scene.size
    rows = [[0] * width for _ in range(height)]
    pieces = frame_pieces(scene, frame)
    # near ones first: most of the others are then told to be behind them by one comparison
    for piece in watched(sorted(pieces, key=lambda piece: -min(point[2] for point in piece)), "pieces of the frame"):
        for number, begin, depths in spans_of(piece, scene.size):
            row, end = rows[number], begin + len(depths)
            drawn = row[begin:end]
            if max(depths[0], depths[-1]) > min(drawn):
                row[begin:end] = map(max, drawn, depths)
    return rows, len(pieces)


def program_rows(program, scene, stored, frame):
    """The bounds that a program's command `picture` writes, or None where the program has no such command.

    Its numbers reach up to 65535 for a wide scene too."""
    words = [program, "picture", "--frame", str(frame)]
    run = subprocess.run(words, input=stored, stdout=subprocess.PIPE, stderr=subprocess.DEVNULL)
    if run.returncode:
        return None
    kind, width, height, _, *numbers = run.stdout.split()
    if kind != b"P2":
        return None
    width, scale = int(width), (scene.top + 1) // (NARROW_TOP + 1)
    numbers = [scale * int(number) for number in numbers]
    return [numbers[begin : begin + width] for begin in range(0, width * int(height), width)]


def rows_of_frame(scene, stored, frame, program=None):
    """The depths of a frame as rows: those of the program's own picture where there is one, else the z-buffer's."""
    rows = program_rows(program, scene, stored, frame) if program else None
    return rows if rows is not None else buffer_of(scene, frame)[0]
