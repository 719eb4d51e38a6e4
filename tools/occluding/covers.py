"""Convex pieces that lie within a polygon: what may be chosen to stand for a patch."""
import numpy

from .triangulation import convex_parts

# A polygon is simplified inwards by these parts of its width too, and no finer grid than this is laid into it.
STEPS, MOST_LINES, MOST_POINTS, MOST_RECTANGLES = (0.01, 0.04), 26, 80, 30
MITRE = 2
SLIGHTLY_LESS = 1 - 1e-8


def pieces_of(polygon):
    """Rings of points, counterclockwise, each convex and within the polygon. They may overlap."""
    rings = rings_of(polygon)
    if len(rings) == 1 and len(rings[0]) <= 6 and is_convex(rings[0]):
        return [rings[0]]
    pieces = rectangles_in(rings)
    count = sum(map(len, rings))
    if count <= MOST_POINTS and not is_rectilinear(rings):
        pieces += convex_parts(rings)
    if count > 16 and not is_rectilinear(rings):
        for step in STEPS:
            for part in simplified(polygon, step):
                inner = rings_of(part)
                pieces += rectangles_in(inner)
                if sum(map(len, inner)) <= MOST_POINTS:
                    pieces += convex_parts(inner)
    return pieces


def rings_of(polygon):
    """The outline counterclockwise and the holes clockwise, as arrays."""
    rings = []
    for number, line in enumerate((polygon.exterior, *polygon.interiors)):
        ring = numpy.array(line.coords)[:-1, :2]
        x, y = ring.T
        is_left = numpy.dot(x, numpy.roll(y, -1)) - numpy.dot(y, numpy.roll(x, -1)) > 0
        rings.append(ring if is_left == (number == 0) else ring[::-1])
    return rings


def is_convex(ring):
    before, after = ring - numpy.roll(ring, 1, axis=0), numpy.roll(ring, -1, axis=0) - ring
    return bool((before[:, 0] * after[:, 1] - before[:, 1] * after[:, 0] >= 0).all())


def is_rectilinear(rings):
    """Whether all edges run along one of the axes, up to a ten-thousandth of their length."""
    edges = numpy.concatenate([numpy.roll(ring, -1, axis=0) - ring for ring in rings])
    return bool((numpy.abs(edges).min(axis=1) <= 1e-4 * numpy.abs(edges).max(axis=1)).all())


def simplified(polygon, step):
    """The parts of a polygon without notches and spikes that are narrower than some part of it, all within it."""
    low_x, low_y, high_x, high_y = polygon.bounds
    reach = step * min(high_x - low_x, high_y - low_y)
    inner = polygon.buffer(-2 * reach, join_style=MITRE)
    grown = inner.buffer(reach * 0.9, join_style=MITRE).simplify(reach * 0.5)
    parts = grown.geoms if hasattr(grown, "geoms") else [grown]
    return [part for part in parts if not part.is_empty and part.area > 0 and polygon.contains(part)]


def lines_between(places):
    """Where a grid is cut: at all places, or at evenly spaced ones where these are too many."""
    found = numpy.unique(places)
    if len(found) > MOST_LINES:
        found = found[numpy.unique(numpy.linspace(0, len(found) - 1, MOST_LINES).round().astype(int))]
    if len(found) < 12:
        # a slanted edge needs lines between the corners
        steps = numpy.linspace(found[0], found[-1], 12)
        found = numpy.unique(numpy.concatenate([found, steps[1:-1]]))
    return found


def rectangles_in(rings):
    """The largest rectangles along the axes of a grid through the polygon's points."""
    points = numpy.concatenate(rings)
    if is_rectilinear(rings):
        xs, ys = numpy.unique(points[:, 0]), numpy.unique(points[:, 1])
        if max(len(xs), len(ys)) > MOST_LINES:
            xs, ys = lines_between(points[:, 0]), lines_between(points[:, 1])
    else:
        xs, ys = lines_between(points[:, 0]), lines_between(points[:, 1])
    free = free_cells(rings, xs, ys)
    found = [(xs[x0], ys[y0], xs[x1], ys[y1]) for x0, y0, x1, y1 in greatest(free)]
    found.sort(key=lambda box: (-(box[2] - box[0]) * (box[3] - box[1]), box))
    return [numpy.array([(a, b), (c, b), (c, d), (a, d)]) for a, b, c, d in found[:MOST_RECTANGLES]]


def free_cells(rings, xs, ys):
    """Of each cell of a grid, by row and column, whether it lies wholly within."""
    begins = numpy.concatenate(rings)
    ends = numpy.concatenate([numpy.roll(ring, -1, axis=0) for ring in rings])
    middle_x, middle_y = (xs[1:] + xs[:-1]) / 2, (ys[1:] + ys[:-1]) / 2
    x, y = numpy.meshgrid(middle_x, middle_y)
    # a little less, so that an edge along a line of the grid isn't said to cross a cell beside it
    half_x, half_y = numpy.meshgrid((xs[1:] - xs[:-1]) * SLIGHTLY_LESS / 2, (ys[1:] - ys[:-1]) * SLIGHTLY_LESS / 2)
    inside, crossed = numpy.zeros(x.shape, bool), numpy.zeros(x.shape, bool)
    for (ax, ay), (bx, by) in zip(begins, ends):
        if (ay > 0) != (by > 0) or ay != by:
            passes = (ay > y) != (by > y)
            at = ax + (y - ay) / (by - ay if by != ay else 1) * (bx - ax)
            inside ^= passes & (x < at)
        # an edge crosses the open cell where no axis keeps them apart
        meets = (min(ax, bx) < x + half_x) & (max(ax, bx) > x - half_x)
        meets &= (min(ay, by) < y + half_y) & (max(ay, by) > y - half_y)
        off = (x - ax) * (by - ay) - (y - ay) * (bx - ax)
        crossed |= meets & (numpy.abs(off) < half_x * abs(by - ay) + half_y * abs(bx - ax))
    return inside & ~crossed


def greatest(free):
    """Each rectangle of free cells that can't be made larger: first and last line of columns, and of rows."""
    rows, columns = free.shape
    full = numpy.zeros(columns, bool)
    for y0 in range(rows):
        below = free[y0 - 1] if y0 else full
        run = numpy.ones(columns, bool)
        for y1 in range(y0, rows):
            run = run & free[y1]
            if not run.any():
                break
            above = free[y1 + 1] if y1 + 1 < rows else full
            steps = numpy.flatnonzero(numpy.diff(numpy.concatenate([[0], run.astype(int), [0]])))
            for x0, x1 in zip(steps[::2].tolist(), steps[1::2].tolist()):
                if not below[x0:x1].all() and not above[x0:x1].all():
                    yield x0, y0, x1, y1 + 1
