"""Sheets: a coarse net that lies below a surface which is a height over a plane, everywhere.

Both are flat between their points, so the net is below the surface where it is so at the points of both and where their
edges cross. Each such place is a bound: some corners' heights, by their shares, are at most the surface's height."""
import dataclasses

import numpy
from shapely.geometry import LineString, Polygon
from shapely.ops import polygonize, unary_union
from shapely.prepared import prep

from .patches import components, neighbours
from .soup import directed_edges, planes_of

# A surface has at least so many triangles, such a slope against its direction at most, and so much of its area.
LEAST, STEEPEST, MOST_OF_IT = 200, 0.05, 0.98
CHUNK = 4_000_000
ROUNDS, SWEEPS = 40, 3


@dataclasses.dataclass
class Surface:
    """Triangles over a plane: flat places and heights of points, and the outline of what they cover."""

    members: numpy.ndarray
    axes: numpy.ndarray
    flat: numpy.ndarray
    height: numpy.ndarray
    triangles: numpy.ndarray
    outline: object
    rounding: float


def surfaces_of(soup):
    """The connected surfaces that are a height over a plane, the largest first, and how many more have an outline with
    a hole or a notch: through that an eye sees below the surface, where a net may be."""
    first, second = neighbours(soup.triangles)
    labels = components(len(soup.triangles), first, second)
    counts = numpy.bincount(labels)
    normals, areas, _ = planes_of(soup.corners())
    large = [label for label in numpy.flatnonzero(counts >= LEAST)]
    large.sort(key=lambda label: (-areas[labels == label].sum(), label))
    found = [surface_in(soup, numpy.flatnonzero(labels == label), normals, areas) for label in large]
    found = [surface for surface in found if surface is not None]
    whole = [surface for surface in found if is_convex(surface)]
    return whole, len(found) - len(whole)


def is_convex(surface):
    """Whether an outline has neither holes nor notches, up to the rounding."""
    outline = surface.outline.buffer(2 * surface.rounding)
    return outline.geom_type == "Polygon" and not outline.interiors and outline.contains(surface.outline.convex_hull)


def surface_in(soup, triangles, normals, areas):
    """The surface of connected triangles, or None where it isn't a height, or is flat."""
    mean = normals[triangles].T @ areas[triangles]
    length = numpy.linalg.norm(mean)
    if length < 0.3 * areas[triangles].sum():
        return None
    up = mean / length
    if numpy.abs(up).max() > 0.9:
        up = numpy.eye(3)[numpy.abs(up).argmax()] * numpy.sign(up[numpy.abs(up).argmax()])
    slopes = normals[triangles] @ up
    rises = slopes > STEEPEST
    if areas[triangles][rises].sum() < MOST_OF_IT * areas[triangles].sum() or slopes.min() > 1 - 1e-9:
        return None
    side = numpy.cross(up, numpy.eye(3)[numpy.abs(up).argmin()])
    side /= numpy.linalg.norm(side)
    axes = numpy.stack([side, numpy.cross(up, side), up])
    used, numbers = numpy.unique(soup.triangles[triangles[rises]], return_inverse=True)
    places = soup.points[used] @ axes.T
    numbers = numbers.reshape(-1, 3)
    outline = outline_of(places[:, :2], numbers)
    if outline is None:
        return None
    return Surface(triangles, axes, places[:, :2], places[:, 2], numbers, outline, soup.rounding)


def outline_of(flat, triangles):
    """What triangles cover, or None where some lie over one another."""
    edges = directed_edges(triangles)
    known = set(map(tuple, edges.tolist()))
    border = [edge for edge in map(tuple, edges.tolist()) if edge[::-1] not in known]
    lines = [LineString([flat[a], flat[b]]) for a, b in border]
    corners = flat[triangles]
    one, other = corners[:, 1] - corners[:, 0], corners[:, 2] - corners[:, 0]
    area = float((one[:, 0] * other[:, 1] - one[:, 1] * other[:, 0]).sum()) / 2
    faces = [face for face in polygonize(lines) if len(over(corners, face.representative_point().coords[0]))]
    if abs(sum(face.area for face in faces) - area) > 1e-7 * area:
        return None
    return unary_union(faces)


def over(corners, place):
    """The triangles over a place."""
    inside = numpy.ones(len(corners), bool)
    for k in range(3):
        p, q = corners[:, k], corners[:, (k + 1) % 3]
        inside &= (q[:, 0] - p[:, 0]) * (place[1] - p[:, 1]) - (q[:, 1] - p[:, 1]) * (place[0] - p[:, 0]) >= 0
    return numpy.flatnonzero(inside)


def is_below_all(surface, eyes):
    """Whether each eye is above the surface, and within its border."""
    corners = surface.flat[surface.triangles]
    for *place, height in (eyes @ surface.axes.T).tolist():
        under = over(corners, place)
        if not len(under):
            return False
        if max(height_at(surface, *surface.triangles[k], numpy.array(place)) for k in under) >= height:
            return False
    return True


class Net:
    """Square cells over a surface's outline, each of two triangles, where these lie in the outline."""

    def __init__(self, surface, most):
        self.surface = surface
        low_x, low_y, high_x, high_y = surface.outline.buffer(-2 * surface.rounding).bounds
        wide, tall = high_x - low_x, high_y - low_y
        side = (2 * wide * tall / max(most, 2)) ** 0.5
        self.cells = numpy.maximum(numpy.floor([wide / side, tall / side]), 1).astype(int)
        self.low, self.step = numpy.array([low_x, low_y]), numpy.array([wide, tall]) / self.cells
        columns, rows = self.cells + 1
        self.places = numpy.array([(low_x + k * self.step[0], low_y + i * self.step[1])
                                   for i in range(rows) for k in range(columns)])
        contains = prep(surface.outline).contains
        self.is_kept = numpy.zeros(2 * self.cells.prod(), bool)
        self.triangles = self.all_triangles()
        for number, triangle in enumerate(self.triangles):
            self.is_kept[number] = contains(Polygon(self.places[triangle]))

    def all_triangles(self):
        """Of each cell, row by row, the triangle below its rising diagonal and the one above."""
        columns = self.cells[0] + 1
        first = (numpy.arange(self.cells[1])[:, None] * columns + numpy.arange(self.cells[0])).reshape(-1)
        below = numpy.stack([first, first + 1, first + columns + 1], axis=1)
        above = numpy.stack([first, first + columns + 1, first + columns], axis=1)
        return numpy.stack([below, above], axis=1).reshape(-1, 3)

    def shares(self, flat):
        """For places: the triangle that each is in, and the shares of its corners. -1 outside of the net."""
        place = (flat - self.low) / self.step
        cell = numpy.clip(numpy.floor(place), 0, self.cells - 1).astype(numpy.int64)
        rest = place - cell
        is_above = rest[:, 1] > rest[:, 0]
        number = 2 * (cell[:, 1] * self.cells[0] + cell[:, 0]) + is_above
        x, y = rest.T
        below = numpy.stack([1 - x, x - y, y], axis=1)
        above = numpy.stack([1 - y, x, y - x], axis=1)
        parts = numpy.where(is_above[:, None], above, below)
        inside = (parts >= -1e-9).all(axis=1)
        number = numpy.where(inside & self.is_kept[number], number, -1)
        return number, numpy.clip(parts, 0, 1)

    def bounds(self):
        """The bounds of the net's heights: corners, shares, and the height of the surface there."""
        surface = self.surface
        flat, height = [surface.flat], [surface.height]
        for places, heights in (self.crossings(), self.under_corners()):
            flat.append(places)
            height.append(heights)
        number, parts = self.shares(numpy.concatenate(flat))
        kept = number >= 0
        return self.triangles[number[kept]], parts[kept], numpy.concatenate(height)[kept]

    def crossings(self):
        """Where edges of the surface cross those of the net."""
        surface = self.surface
        edges = numpy.unique(numpy.sort(directed_edges(surface.triangles), axis=1), axis=0)
        place = (surface.flat - self.low) / self.step
        flats, heights = [], []
        for along in (place[:, 0], place[:, 1], place[:, 0] - place[:, 1]):
            begin, end = along[edges[:, 0]], along[edges[:, 1]]
            first = numpy.ceil(numpy.minimum(begin, end))
            count = numpy.maximum(numpy.floor(numpy.maximum(begin, end)) - first + 1, 0).astype(int)
            one = numpy.repeat(numpy.arange(len(edges)), count)
            line = first[one] + numpy.arange(len(one)) - numpy.repeat(numpy.cumsum(count) - count, count)
            run = end[one] - begin[one]
            part = numpy.where(run != 0, (line - begin[one]) / numpy.where(run != 0, run, 1), 0)
            a, b = edges[one, 0], edges[one, 1]
            flats.append(surface.flat[a] + part[:, None] * (surface.flat[b] - surface.flat[a]))
            heights.append(surface.height[a] + part * (surface.height[b] - surface.height[a]))
        return numpy.concatenate(flats), numpy.concatenate(heights)

    def under_corners(self):
        """The net's own points, with the surface's height over them."""
        surface, flats, heights = self.surface, [], []
        corners = surface.flat[surface.triangles]
        for place in self.places[numpy.unique(self.triangles[self.is_kept])]:
            for triangle in over(corners, place):
                a, b, c = surface.triangles[triangle]
                flats.append(place)
                heights.append(height_at(surface, a, b, c, place))
        return numpy.array(flats).reshape(-1, 2), numpy.array(heights)


def height_at(surface, a, b, c, place):
    """The height of the plane through three points at a place."""
    (p, q, r), (x, y, z) = surface.flat[[a, b, c]], surface.height[[a, b, c]]
    matrix = numpy.array([q - p, r - p]).T
    along, across = numpy.linalg.solve(matrix, place - p)
    return x + along * (y - x) + across * (z - x)


def lowered(corners, parts, heights, count):
    """Heights of so many points that keep all bounds, as high as one point after another may be."""
    found = numpy.full(count, heights.max())
    for _ in range(ROUNDS):
        over = (found[corners] * parts).sum(axis=1) - heights
        size = (parts**2).sum(axis=1)
        step = numpy.where(over > 0, over / size, 0)[:, None] * parts
        fall = numpy.zeros(count)
        numpy.maximum.at(fall, corners.reshape(-1), step.reshape(-1))
        found -= fall
    over = numpy.maximum((found[corners] * parts).sum(axis=1) - heights, 0)
    fall = numpy.zeros(count)
    numpy.maximum.at(fall, corners.reshape(-1), numpy.repeat(over, 3))
    found -= fall
    return raised(found, corners, parts, heights, count)


def raised(found, corners, parts, heights, count):
    """Each point after another as high as its bounds allow."""
    flat, share = corners.reshape(-1), parts.reshape(-1)
    used = share > 1e-6
    order = numpy.argsort(flat[used], kind="stable")
    bound = numpy.repeat(numpy.arange(len(corners)), 3)[used][order]
    share = share[used][order]
    begins = numpy.searchsorted(flat[used][order], numpy.arange(count + 1))
    left = heights - (found[corners] * parts).sum(axis=1)
    for sweep in range(SWEEPS):
        for point in range(count):
            ends = slice(begins[point], begins[point + 1])
            if begins[point] == begins[point + 1]:
                continue
            rise = float((left[bound[ends]] / share[ends]).min())
            # not all at once, else the first point takes what its neighbours need
            rise *= 1.0 if sweep == SWEEPS - 1 else 0.5
            if rise > 0:
                found[point] += rise
                left[bound[ends]] -= rise * share[ends]
    return found


def net_under(surface, most):
    """The triangles of a net of about so many, as corners in space, front upwards."""
    net = Net(surface, most)
    if not net.is_kept.any():
        return numpy.zeros((0, 3, 3))
    corners, parts, heights = net.bounds()
    found = lowered(corners, parts, heights, len(net.places))
    over = (found[corners] * parts).sum(axis=1) - heights
    # below also when it is stored in 32 bits
    found -= max(float(over.max()), 0) + 2 * surface.rounding
    places = numpy.column_stack([net.places, found]) @ surface.axes
    return places[net.triangles[net.is_kept]]
