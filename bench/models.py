"""Scenes as people have them: surfaces of small triangles that share their vertices, seen by four cameras in turn."""
import math
import pathlib
import sys

sys.path.insert(0, str(pathlib.Path(__file__).resolve().parent.parent / "scenes"))
import msoc  # noqa: E402
from town import BOTH_SIDES, GLASS, Builder, Shape, block  # noqa: E402

SIZE, NEAR, BOXES = (1280, 720), 1024, 500


def net(surface, rows, columns, point):
    """Two triangles for each place in so many rows and columns, over the points that `point` gives of a row and a
    column."""
    points = [tuple(map(int, point(row, column))) for row in range(rows + 1) for column in range(columns + 1)]
    faces = []
    for row in range(rows):
        for column in range(columns):
            first = row * (columns + 1) + column
            below = first + columns + 1
            faces += [(first, first + 1, below + 1), (first, below + 1, below)]
    surface.solid(points, faces)


def camera(eye, along):
    """A camera at a point that looks along a direction, on the screen 1.2 times as near as it is."""
    length = math.hypot(*along)
    along = [part / length for part in along]
    length = math.hypot(along[2], along[0])
    across = [along[2] / length, 0, -along[0] / length]
    up = [along[1] * across[2], along[2] * across[0] - along[0] * across[2], -along[1] * across[0]]
    rows = []
    for scale, direction in ((1.2 * SIZE[1] / SIZE[0], across), (1.2, up), (1, along)):
        row = [round(msoc.ONE * scale * part) for part in direction]
        rows += [*row, -round(sum(part * place for part, place in zip(row, eye)) / msoc.ONE)]
    return tuple(rows)


def scan(numbers, rings):
    """A closed surface with bumps of 2 rings^2 triangles, as a scanner gives it, with boxes in and around it."""
    waves = [(2 + numbers.below(9), 2 + numbers.below(9), numbers.below(628) / 100, numbers.below(60) / 1000)
             for _ in range(8)]

    def point(ring, step):
        down, around = math.pi * ring / rings, 2 * math.pi * step / rings
        bumps = sum(high * math.sin(2 * a * down + b * around + turn) for a, b, turn, high in waves)
        radius = 200000 * (1 + math.sin(down) * bumps)
        flat = radius * math.sin(down)
        return flat * math.cos(around), radius * math.cos(down), flat * math.sin(around)

    surface = msoc.Triangles([])
    net(surface, rings, rings, point)
    boxes = []
    for _ in range(BOXES):
        low = [numbers.below(2 * reach) - reach for reach in (300000, 200000, 300000)]
        side = 1000 + numbers.below(20000)
        boxes.append(msoc.box(low, [place + side for place in low]))
    cameras = []
    for turn in range(4):
        angle = 0.2 + math.pi / 2 * turn
        eye = 600000 * math.cos(angle), 120000, 600000 * math.sin(angle)
        cameras.append(camera(eye, [-place for place in eye]))
    return surface, boxes, cameras


def thing(surface, numbers, side):
    """A turned thing that stands in the hall: up to 32 sides and 8 rings."""
    x, z = (4000 + numbers.below(side - 8000) for _ in range(2))
    radius, high = 600 + numbers.below(3000), 2000 + numbers.below(20000)
    parts, rings, wave = 8 + numbers.below(24), 2 + numbers.below(6), numbers.below(100) / 200

    def point(ring, part):
        wide, angle = radius * (1 + wave * math.sin(3 * ring)), 2 * math.pi * part / parts
        return x + wide * math.cos(angle), high * (rings - ring) / rings, z + wide * math.sin(angle)

    net(surface, rings, parts, point)


def hall(numbers, things):
    """A hall with so many things in it, seen from near its middle, with boxes anywhere in it."""
    side, high, surface = 160000, 30000, msoc.Triangles([])
    for x0, z0, x1, z1 in ((0, 0, side, 0), (side, 0, side, side), (side, side, 0, side), (0, side, 0, 0)):
        net(surface, 8, 32, lambda row, column: (
            x0 + (x1 - x0) * column / 32, high * (8 - row) / 8, z0 + (z1 - z0) * column / 32))
    for level in (0, high):
        net(surface, 32, 32, lambda row, column: (side * row / 32, level, side * column / 32))
    for _ in range(things):
        thing(surface, numbers, side)
    boxes = []
    for _ in range(BOXES):
        low = [numbers.below(reach) for reach in (side, high, side)]
        wide = 200 + numbers.below(2000)
        boxes.append(msoc.box(low, [place + wide for place in low]))
    cameras = []
    for turn in range(4):
        angle = 0.3 + math.pi / 2 * turn
        across, along = math.cos(angle), math.sin(angle)
        cameras.append(camera((side / 2 + 9000 * across, 16000, side / 2 + 9000 * along), (across, -0.1, along)))
    return surface, boxes, cameras


def doorway(surface, high, ends, door):
    """A wall from one end to another with a doorway of a width at a place in it: what is left, right and above."""
    (x0, z0), (x1, z1), long = *ends, math.dist(*ends)

    def side(first, end, low):
        (ax, az), (bx, bz) = ((x0 + (x1 - x0) * at / long, z0 + (z1 - z0) * at / long) for at in (first, end))
        corners = ((ax, high, az), (bx, high, bz), (bx, low, bz), (ax, low, az))
        surface.quad(*(tuple(map(int, corner)) for corner in corners))

    at, wide = door
    side(0, at, 0)
    side(at + wide, long, 0)
    side(at, at + wide, high * 4 // 5)


def rooms(numbers, count):
    """Count by count rooms of four metres, each with doorways, seen from four of them, with boxes in all."""
    room, high, wide, surface = 20000, 12000, 4500, msoc.Triangles([])
    for line in range(count + 1):
        for k in range(count):
            for turned in (False, True):
                ends = [(line * room, (k + end) * room) for end in (0, 1)]
                ends = [end[::-1] for end in ends] if turned else ends
                doorway(surface, high, ends, (1000 + numbers.below(room - wide - 2000), wide))
    for x in range(0, count * room, room):
        for z in range(0, count * room, room):
            for level in (0, high):
                surface.quad((x, level, z), (x + room, level, z), (x + room, level, z + room), (x, level, z + room))
    boxes = []
    for _ in range(BOXES):
        x, z = (numbers.below(count * room - 2000) for _ in range(2))
        tall = 1000 + numbers.below(8000)
        boxes.append(msoc.box((x, 0, z), (x + 500 + numbers.below(1500), tall, z + 500 + numbers.below(1500))))
    middle, cameras = count // 2 * room, []
    for turn in range(4):
        angle = 0.4 + math.pi / 2 * turn
        across, along = math.cos(angle), math.sin(angle)
        eye = middle + 4000 * across + turn % 2 * room + room / 2, 8500, middle + 4000 * along + room / 2
        cameras.append(camera(eye, (across, -0.05, along)))
    return surface, boxes, cameras


def furnished_hall(numbers, things, metre=5000):
    """The bytes of a hall as a model, its boxes as glass, which hides nothing."""
    surface, boxes, _ = hall(numbers, things)
    builder, shape = Builder(), Shape()
    shape.points = [tuple(part / metre for part in point) for point in surface.vertices]
    shape.indices = [number for row in surface.rows for number in row]
    roots = [builder.node("hall", mesh=builder.mesh("hall", (shape, BOTH_SIDES)))]
    for number, (_, *ends) in enumerate(boxes):
        low, high = (tuple(part / metre for part in ends[k : k + 3]) for k in (0, 3))
        roots.append(builder.node(f"box {number}", mesh=builder.mesh(f"box {number}", (block(low, high), GLASS))))
    middle = 160000 / metre / 2
    for turn in range(4):
        angle = 0.3 + math.pi / 2 * turn
        eye = (middle + 1.8 * math.cos(angle), 3.2, middle + 1.8 * math.sin(angle))
        at = (eye[0] + math.cos(angle), 3.1, eye[2] + math.sin(angle))
        roots.append(builder.camera(f"look {turn}", eye, at))
    return builder.glb(roots)


def scene(parts, frames):
    """The bytes of such a scene, its cameras in turn over so many frames."""
    surface, boxes, cameras = parts
    turns = [cameras[frame % len(cameras)] for frame in range(frames)]
    return msoc.scene(SIZE, NEAR, surface.vertices, surface.rows, boxes, turns)
