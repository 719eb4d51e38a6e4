"""Which triangles of a model hide, and in which order a scene has them."""
import dataclasses
import math
import re

from . import transforms
from .document import ModelError
from .progress import watched

ORDERS = ("file", "near", "area", "cells")


@dataclasses.dataclass
class Occluder:
    """A triangle of the model that hides, with its area in square metres."""

    points: tuple
    area: float
    is_double_sided: bool

    def middle(self):
        a, b, c = self.points
        return tuple((a[axis] + b[axis] + c[axis]) / 3 for axis in range(3))


def pattern(text, option):
    """A compiled expression, or None where there is none."""
    try:
        return re.compile(text) if text is not None else None
    except re.error as error:
        raise ModelError(f"{option} isn't a regular expression: {error}.") from None


class Choice:
    """Which surfaces hide: those that are named, or where nothing is named the opaque ones; never those of `clear`."""

    def __init__(self, named, clear):
        self.named, self.clear = pattern(named, "--occluders"), pattern(clear, "--clear")

    def takes(self, part, surface):
        names = (part.name, part.mesh, surface.material.name)
        if self.clear and any(map(self.clear.search, names)):
            return False
        if self.named:
            return any(map(self.named.search, names))
        return not surface.material.is_clear

    def occluders(self, parts):
        """The triangles of these surfaces that have an area, in the order of the file."""
        found = []
        for part in watched(parts, "parts that may hide"):
            for surface in part.surfaces:
                if self.takes(part, surface):
                    found += of_surface(surface)
        return found


def of_surface(surface):
    points, is_double_sided = surface.points, surface.material.is_double_sided
    corners = [(points[a], points[b], points[c]) for a, b, c in surface.triangles]
    sized = [(triangle, transforms.triangle_area(*triangle)) for triangle in corners]
    return [Occluder(triangle, area, is_double_sided) for triangle, area in sized if area > 0]


def largest(occluders, most):
    """So many of the largest, in the order in which they stand."""
    if len(occluders) <= most:
        return occluders
    least = sorted((occluder.area for occluder in occluders), reverse=True)[most - 1]
    above = sum(occluder.area > least for occluder in occluders)
    # of those that are as large as the last, the first ones
    equals, kept = most - above, []
    for occluder in occluders:
        if occluder.area > least:
            kept.append(occluder)
        elif occluder.area == least and equals:
            kept.append(occluder)
            equals -= 1
    return kept


def distance_to(eyes):
    """The distance of a point from the nearest of some eyes."""
    return lambda point: min(math.dist(point, eye) for eye in eyes)


def ordered(occluders, order, eyes, cell):
    """Occluders in one of the orders. `cell` is the side of a cell in metres."""
    far = distance_to(eyes)
    if order == "area":
        return sorted(occluders, key=lambda occluder: -occluder.area)
    if order == "near":
        return sorted(occluders, key=lambda occluder: far(occluder.middle()))
    if order == "cells":
        return by_cells(occluders, far, cell)
    return occluders


def by_cells(occluders, far, cell):
    """One cell of a grid after another, near ones first, and within a cell as the file has them."""
    cells = {}
    for occluder in occluders:
        place = tuple(math.floor(part / cell) for part in occluder.middle())
        cells.setdefault(place, []).append(occluder)
    middle = lambda place: tuple((part + 0.5) * cell for part in place)  # noqa: E731
    return [occluder for place in sorted(cells, key=lambda place: far(middle(place))) for occluder in cells[place]]
