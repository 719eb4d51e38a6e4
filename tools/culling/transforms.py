"""Affine maps of space, each as twelve numbers: three rows of four. Vectors are tuples of three."""
import math

IDENTITY = (1.0, 0.0, 0.0, 0.0, 0.0, 1.0, 0.0, 0.0, 0.0, 0.0, 1.0, 0.0)


def product(outer, inner):
    """The map that does the inner one first."""
    rows = []
    for row in (outer[0:4], outer[4:8], outer[8:12]):
        a, b, c, d = row
        rows += [a * inner[k] + b * inner[4 + k] + c * inner[8 + k] + (d if k == 3 else 0.0) for k in range(4)]
    return tuple(rows)


def of_columns(numbers):
    """The map of a matrix of 4 by 4 that is stored column by column, whose last row is 0, 0, 0, 1."""
    return tuple(float(numbers[4 * column + row]) for row in range(3) for column in range(4))


def of_parts(move, turn, scale):
    """The map that scales, then turns by a quaternion (x, y, z, w), then moves."""
    length = math.sqrt(sum(part * part for part in turn)) or 1.0
    x, y, z, w = (part / length for part in turn)
    rows = (
        (1 - 2 * (y * y + z * z), 2 * (x * y - z * w), 2 * (x * z + y * w)),
        (2 * (x * y + z * w), 1 - 2 * (x * x + z * z), 2 * (y * z - x * w)),
        (2 * (x * z - y * w), 2 * (y * z + x * w), 1 - 2 * (x * x + y * y)),
    )
    return tuple(part for row, end in zip(rows, move) for part in (*(a * b for a, b in zip(row, scale)), float(end)))


def moved(points, by):
    """Points through a map."""
    a, b, c, d, e, f, g, h, i, j, k, m = by
    return [
        (a * x + b * y + c * z + d, e * x + f * y + g * z + h, i * x + j * y + k * z + m) for x, y, z in points
    ]


def is_mirror(by):
    """Whether a map turns left into right."""
    a, b, c, _, d, e, f, _, g, h, i, _ = by
    return a * (e * i - f * h) - b * (d * i - f * g) + c * (d * h - e * g) < 0


def difference(a, b):
    return (a[0] - b[0], a[1] - b[1], a[2] - b[2])


def dot(a, b):
    return a[0] * b[0] + a[1] * b[1] + a[2] * b[2]


def cross(a, b):
    return (a[1] * b[2] - a[2] * b[1], a[2] * b[0] - a[0] * b[2], a[0] * b[1] - a[1] * b[0])


def length(a):
    return math.sqrt(dot(a, a))


def unit(a):
    """The vector of length 1 in a direction, or None where there is none."""
    size = length(a)
    return (a[0] / size, a[1] / size, a[2] / size) if size > 0 else None


def triangle_area(a, b, c):
    return length(cross(difference(b, a), difference(c, a))) / 2


def bounds(points):
    """The least and the greatest corner of a box around points."""
    xs, ys, zs = zip(*points)
    return (min(xs), min(ys), min(zs)), (max(xs), max(ys), max(zs))
