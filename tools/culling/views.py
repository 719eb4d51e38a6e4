"""Cameras: where the eye stands and looks, and the rows of whole numbers that a scene has for it.

A scene's camera takes each row of x, y and w times a vertex, rounds it down, and adds the row's last number. Two things
are done about the rounding. The last number is made from the rounded row and the eye's rounded place, so that the eye
maps to 0. And of the whole numbers around each part of a row those are taken that bring the eye's own sum to the middle
between two whole numbers, so that rounding down errs by at most half a unit to either side and not by a whole one to
one side, with as little turn as there may be."""
import dataclasses
import itertools
import math

from . import transforms
from .document import ModelError
from .scene import msoc

NEAR_UNITS = 1024
# How many near distances off the middle of a row and its turn weigh the same.
BALANCE = 2


@dataclasses.dataclass
class View:
    """An eye in the model, three directions of length 1, and the height of the view in radians."""

    name: str
    eye: tuple
    right: tuple
    up: tuple
    ahead: tuple
    height: float

    def directions(self, aspect):
        """The vectors of x, y and w: on the edges of the screen x and y are w or -w."""
        tall = 1 / math.tan(self.height / 2)
        scaled = [(self.right, tall / aspect), (self.up, tall), (self.ahead, 1.0)]
        return [tuple(part * scale for part in axis) for axis, scale in scaled]

    def corners(self, aspect):
        """Directions to the middle and the corners of the screen, each of 1 ahead."""
        tall = math.tan(self.height / 2)
        steps = [(0, 0)] + [(x * tall * aspect, y * tall) for x in (-1, 1) for y in (-1, 1)]
        return [tuple(f + x * r + y * u for f, r, u in zip(self.ahead, self.right, self.up)) for x, y in steps]


def looking(name, eye, at, height):
    """The view from an eye to a point. Straight up or down, what is above the middle is -z or z, as on a map."""
    ahead = transforms.unit(transforms.difference(at, eye))
    if ahead is None:
        raise ModelError(f"The view {name} looks at its own eye.")
    right = transforms.unit(transforms.cross(ahead, (0.0, 1.0, 0.0)))
    if right is None or math.hypot(ahead[0], ahead[2]) < 1e-9:
        right = (1.0, 0.0, 0.0)
    return View(name, tuple(map(float, eye)), right, transforms.cross(right, ahead), ahead, height)


def of_model(eye, height):
    """The view of a camera of a model, which looks along its own -z."""
    right, up, back = (tuple(eye.place[4 * row + column] for row in range(3)) for column in range(3))
    ahead = transforms.unit(tuple(-part for part in back))
    right = transforms.unit(transforms.cross(ahead, up)) if ahead else None
    if right is None:
        raise ModelError(f"The camera {eye.name} is flat.")
    place = tuple(eye.place[4 * row + 3] for row in range(3))
    return View(eye.name, place, right, transforms.cross(right, ahead), ahead, height or eye.height)


def around(bounds, count, height, aspect):
    """Views from around a box, from a little above, so far off that all of it is seen."""
    low, high = bounds
    middle = tuple((a + b) / 2 for a, b in zip(low, high))
    radius = transforms.length(transforms.difference(high, low)) / 2
    narrow = min(height / 2, math.atan(math.tan(height / 2) * aspect))
    away, rise = radius / math.sin(narrow), math.radians(20)
    views = []
    for number in range(count):
        turn = 2 * math.pi * number / count
        step = (math.sin(turn) * math.cos(rise), math.sin(rise), math.cos(turn) * math.cos(rise))
        eye = tuple(m + away * part for m, part in zip(middle, step))
        views.append(looking(f"orbit {number}", eye, middle, height))
    return views


def along(text, height):
    """The views of a path: a line for each, with the eye's x, y, z and those of the point that it looks at."""
    views = []
    for number, line in enumerate(text.split("\n"), 1):
        words = line.split("#")[0].replace(",", " ").split()
        if not words:
            continue
        try:
            numbers = list(map(float, words))
        except ValueError:
            numbers = []
        if len(numbers) != 6 or not all(map(math.isfinite, numbers)):
            raise ModelError(f"Line {number} of the path isn't six numbers.")
        views.append(looking(f"line {number}", numbers[:3], numbers[3:], height))
    return views


class Frame:
    """How the model's metres become the scene's units: whole vertices a metre, and the point that is 0, 0, 0.

    A vertex counts in parts of a camera's unit, of which there are `fineness`; the near distance is 1024 of these
    units, and `near` metres."""

    def __init__(self, near, fineness, origin):
        self.near, self.fineness, self.origin = near, fineness, origin
        self.scale = NEAR_UNITS * fineness / near

    def vertices(self, points, rounding=round):
        """Points as vertices of the scene, rounded to the nearest, or down or up."""
        scale, (a, b, c) = self.scale, self.origin
        return [(rounding((x - a) * scale), rounding((y - b) * scale), rounding((z - c) * scale)) for x, y, z in points]

    def camera(self, view, aspect):
        """The twelve numbers of a view."""
        eye, = self.vertices([view.eye])
        rays = view.corners(aspect)
        return tuple(number for direction in view.directions(aspect) for number in self.row(direction, eye, rays))

    def row(self, direction, eye, rays):
        """The four numbers of a row: see the head of this file."""
        exact = [msoc.ONE * part / self.fineness for part in direction]
        choices = [range(math.floor(part) - 1, math.floor(part) + 3) for part in exact]
        turns = [[ray[axis] * self.fineness / msoc.ONE for axis in range(3)] for ray in rays]

        def error(row):
            """The greatest error at so many near distances, over the distance."""
            rest = transforms.dot(row, eye) % msoc.ONE / msoc.ONE
            off = [a - b for a, b in zip(row, exact)]
            drift = max(abs(transforms.dot(off, turn)) for turn in turns)
            return abs(rest - 0.5) / (BALANCE * NEAR_UNITS) + drift

        row = min(itertools.product(*choices), key=error)
        return (*row, -(transforms.dot(row, eye) // msoc.ONE))
