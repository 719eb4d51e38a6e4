"""Objects on the screen: the rectangle around each in a frame, in pixels, for pictures and pages."""
import itertools

from .depths import Lens
from .scene import msoc

SIDES = [(a, b) for a, b in itertools.combinations(range(8), 2) if (a ^ b) in (1, 2, 4)]
TRIANGLE_SIDES = [(0, 1), (1, 2), (2, 0)]


def corners_of(box):
    """The eight corners of a box: bit 0, 1 and 2 of a corner's number take the greatest x, y and z."""
    _, *numbers = box
    return [tuple(numbers[axis + 3 * (corner >> axis & 1)] for axis in range(3)) for corner in range(8)]


class Outlines:
    """The rectangles of a frame's objects: x0, y0, x1, y1 in whole pixels, cut to the screen, or None."""

    def __init__(self, scene, frame):
        self.scene, self.frame, self.lens = scene, frame, Lens(scene, True)

    def of(self, thing):
        kind = thing[0]
        if kind == msoc.RECTANGLE:
            return self.cut(thing[1:5])
        if kind == msoc.BOX:
            return self.around(self.scene.clips(self.frame, corners_of(thing)), SIDES)
        clips, triangles = self.mesh_clips(thing)
        sides = {(triangle[a], triangle[b]) for triangle in triangles for a, b in TRIANGLE_SIDES}
        return self.around(clips, sides)

    def mesh_clips(self, thing):
        """The clip vertices of a mesh, each once, and its triangles by their numbers among these."""
        _, first, count, *_ = thing
        triangles = self.scene.object_triangles[first : first + count]
        numbers = sorted({number for triangle in triangles for number in triangle})
        places = {number: place for place, number in enumerate(numbers)}
        clips = self.scene.clips(self.frame, [self.scene.vertices[number] for number in numbers])
        return clips, [tuple(places[number] for number in triangle) for triangle in triangles]

    def around(self, clips, sides):
        """The rectangle around what of some points and sides lies at the near distance or beyond."""
        near = self.scene.near
        inside = [clip[2] >= near for clip in clips]
        points = [self.lens.snapped(*clip) for clip, is_inside in zip(clips, inside) if is_inside]
        if not all(inside):
            for a, b in sides:
                if inside[a] != inside[b]:
                    points.append(self.lens.cut(*((clips[a], clips[b]) if inside[a] else (clips[b], clips[a]))))
        return self.cut(pixels_around(points)) if points else None

    def cut(self, rectangle):
        """A rectangle's pixels in the screen, or None where it has none there."""
        x0, y0, x1, y1 = rectangle
        width, height = self.scene.size
        x0, y0, x1, y1 = max(0, x0), max(0, y0), min(width, x1), min(height, y1)
        return (x0, y0, x1, y1) if x0 < x1 and y0 < y1 else None


def pixels_around(points):
    """The rectangle of the pixels that points in sixteenths of a pixel lie in or between."""
    acrosses, downs, *_ = zip(*points)
    return min(acrosses) // 16, min(downs) // 16, max(acrosses) // 16 + 1, max(downs) // 16 + 1
