"""The things that a scene tests: of each part of a model a box, or its triangles as a mesh."""
import dataclasses
import math

from . import transforms
from .progress import watched
from .scene import MOST_OBJECT_TRIANGLES, MOST_OBJECTS, MOST_VERTICES, msoc

KINDS = ("box", "mesh", "both")


class Vertices:
    """The table of a scene's vertices, each place once."""

    def __init__(self):
        self.rows, self.numbers = [], {}

    def number(self, vertex):
        number = self.numbers.setdefault(vertex, len(self.rows))
        if number == len(self.rows):
            self.rows.append(vertex)
        return number

    def missing(self, vertices):
        """How many of some vertices aren't in the table."""
        return len(set(vertices).difference(self.numbers))


@dataclasses.dataclass
class Thing:
    """An object of the scene with its name."""

    name: str
    kind: str
    numbers: tuple


class Objects:
    """The objects of some parts, within the limits of a scene."""

    def __init__(self, frame, vertices):
        self.frame, self.vertices = frame, vertices
        self.triangles, self.things, self.notes = [], [], []
        self.boxed = 0

    def take(self, parts, kind):
        """Adds each part. The largest stay where there are too many, and what has no room as a mesh is a box."""
        most = MOST_OBJECTS // (2 if kind == "both" else 1)
        if len(parts) > most:
            parts = largest_parts(parts, most)
            self.notes.append(f"objects: only the {most} parts with the largest boxes, since a scene holds no more")
        for part in watched(parts, "objects"):
            shape = self.shape_of(part) if kind != "box" else None
            if kind != "mesh" or shape is None:
                self.add_box(part)
            if shape is not None:
                self.add_mesh(part, shape)
        if self.boxed:
            self.notes.append(f"objects: {self.boxed} as boxes: they have points or lines, or no room as meshes")

    def shape_of(self, part):
        """The corners of a part's triangles, or None where it can't be a mesh: it has none, or other things beside
        them, or the tables are full."""
        surfaces = [(self.frame.vertices(surface.points), surface.triangles) for surface in part.surfaces]
        corners = [places[number] for places, triangles in surfaces for triangle in triangles for number in triangle]
        triangles = len(self.triangles) + len(corners) // 3
        vertices = len(self.vertices.rows) + self.vertices.missing(corners)
        if part.is_loose or not corners or triangles > MOST_OBJECT_TRIANGLES or vertices > MOST_VERTICES:
            self.boxed += 1
            return None
        return corners

    def add_box(self, part):
        low, high = box_of(part)
        low, = self.frame.vertices([low], math.floor)
        high, = self.frame.vertices([high], math.ceil)
        self.things.append(Thing(part.name, "box", msoc.box(low, high)))

    def add_mesh(self, part, corners):
        self.things.append(Thing(part.name, "mesh", msoc.mesh(len(self.triangles), len(corners) // 3)))
        numbers = iter(map(self.vertices.number, corners))
        self.triangles += zip(numbers, numbers, numbers)


def box_of(part):
    """The box around all points of a part."""
    return transforms.bounds([point for surface in part.surfaces for point in surface.points])


def largest_parts(parts, most):
    """So many of the parts with the largest boxes, in the order in which they stand."""
    sizes = [transforms.length(transforms.difference(*box_of(part))) for part in parts]
    chosen = set(sorted(range(len(parts)), key=lambda number: -sizes[number])[:most])
    return [part for number, part in enumerate(parts) if number in chosen]
