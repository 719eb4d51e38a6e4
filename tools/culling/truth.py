"""What is truly hidden: objects judged by one depth for each sample, in place of maskcull's two for each subtile.

An object is truly hidden where each of its samples in the screen has a depth of the frame that is greater than the
object's nearness there. What maskcull calls occluded is always truly hidden; the rest of it is what its coarse picture
costs. A mesh's nearness is rounded up to a whole number here, as the drawn depths are."""
from .depths import Lens, spans_of
from .outlines import Outlines, corners_of, pixels_around
from .scene import msoc


class Judge:
    """Judges the objects of a frame by the rows of its depths."""

    def __init__(self, scene, frame, rows):
        self.scene, self.frame, self.rows = scene, frame, rows
        self.lens, self.outlines = Lens(scene, True), Outlines(scene, frame)

    def is_hidden(self, thing):
        kind = thing[0]
        if kind == msoc.MESH:
            return self.is_mesh_hidden(thing)
        if kind == msoc.RECTANGLE:
            return thing[5] >= self.scene.near and self.is_flat_hidden(thing[1:5], thing[5])
        clips = self.scene.clips(self.frame, corners_of(thing))
        if self.is_past_telling(clips):
            return False
        rectangle = pixels_around([self.lens.snapped(*clip) for clip in clips])
        return self.is_flat_hidden(rectangle, min(clip[2] for clip in clips))

    def is_past_telling(self, clips):
        """Whether a corner is before the near distance or past the guard, so that nothing is told of it."""
        return any(clip[2] < self.scene.near or self.lens.is_past_guard(*clip) for clip in clips)

    def is_flat_hidden(self, rectangle, distance):
        rectangle = self.outlines.cut(rectangle)
        if rectangle is None:
            return False
        x0, y0, x1, y1 = rectangle
        nearness = -(-self.scene.top * self.scene.near // distance)
        return all(min(row[x0:x1]) > nearness for row in self.rows[y0:y1])

    def is_mesh_hidden(self, thing):
        clips, triangles = self.outlines.mesh_clips(thing)
        if any(self.lens.is_past_guard(*clip) for clip in clips):
            return False
        samples = 0
        for piece in self.lens.pieces_of_all(clips, triangles):
            for row, begin, depths in spans_of(piece, self.scene.size, True):
                drawn = self.rows[row][begin : begin + len(depths)]
                if any(behind <= depth for behind, depth in zip(drawn, depths)):
                    return False
                samples += len(depths)
        return samples > 0


def hidden_objects(scene, frame, rows):
    """For each object whether it is truly hidden in a frame with these depths."""
    judge = Judge(scene, frame, rows)
    return [judge.is_hidden(thing) for thing in scene.objects]
