"""The triangles of a model that hide, as arrays: points joined by place, and for each triangle its part and sides."""
import dataclasses

import numpy

from culling.document import ModelError

# The rounding: this part of the model's size, or of its farthest coordinate. It is the unit of a scene's vertices where
# the near distance is a thousandth of the size, and four times what storing a coordinate in 32 bits may move it by.
ROUNDING = 2.0**-22


@dataclasses.dataclass
class Soup:
    """Triangles by the numbers of their points, fronts counterclockwise."""

    points: numpy.ndarray
    triangles: numpy.ndarray
    is_double: numpy.ndarray
    part: numpy.ndarray
    rounding: float
    names: list
    places: list

    def corners(self, chosen=slice(None)):
        return self.points[self.triangles[chosen]]

    def size(self):
        return float(numpy.linalg.norm(numpy.ptp(self.points, axis=0)))


def soup_of(model, choice):
    """The triangles that hide and don't move, of the surfaces that a choice takes, and how many moving parts are
    left out."""
    points, triangles, double, part, names, places, moving, count = [], [], [], [], [], [], 0, 0
    for one in model.parts:
        surfaces = [surface for surface in one.surfaces if surface.triangles and choice.takes(one, surface)]
        if one.is_moving:
            moving += bool(surfaces)
            continue
        for surface in surfaces:
            points.append(numpy.array(surface.points, float))
            triangles.append(numpy.array(surface.triangles, numpy.int64) + count)
            double.append(numpy.full(len(surface.triangles), surface.material.is_double_sided))
            part.append(numpy.full(len(surface.triangles), len(names)))
            count += len(surface.points)
        names.append(one.name)
        places.append(numpy.array(one.place, float).reshape(3, 4))
    if not triangles:
        raise ModelError("The model has no triangle that hides and stands still.")
    arrays = [numpy.concatenate(rows) for rows in (points, triangles, double, part)]
    return joined(*arrays, names, places), moving


def joined(points, triangles, double, part, names, places):
    """One point for all at a place, up to an eighth of the rounding; without triangles that have no area."""
    used = points[numpy.unique(triangles)]
    reach = max(float(numpy.linalg.norm(numpy.ptp(used, axis=0))), float(numpy.abs(used).max()))
    rounding = ROUNDING * (reach or 1.0)
    cells = numpy.round(points / (rounding / 8)).astype(numpy.int64)
    _, first, number = numpy.unique(cells, axis=0, return_index=True, return_inverse=True)
    points, triangles = points[first], number.reshape(-1)[triangles]
    a, b, c = (triangles[:, k] for k in range(3))
    kept = (a != b) & (b != c) & (c != a)
    return Soup(points, triangles[kept], double[kept], part[kept], rounding, names, places)


def planes_of(corners):
    """Of each triangle the unit normal, the area, and whether it has a normal at all."""
    across = numpy.cross(corners[:, 1] - corners[:, 0], corners[:, 2] - corners[:, 0])
    length = numpy.linalg.norm(across, axis=1)
    has_normal = length > 0
    return across / numpy.where(has_normal, length, 1)[:, None], length / 2, has_normal


def directed_edges(triangles):
    """The three edges of each triangle, in order, as pairs of points."""
    return triangles[:, [[0, 1], [1, 2], [2, 0]]].reshape(-1, 2)
