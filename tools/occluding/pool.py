"""What there is to choose from: convex pieces in space, each of some triangles."""
import numpy
from scipy.spatial import cKDTree


class Pool:
    """Pieces, each a fan of triangles with a front; `group` is what a piece is a part of, `sheets`
    are the groups that are nets below surfaces, `solids` those that are boxes in a part."""

    def __init__(self):
        self.fans, self.is_double, self.group, self.sheets = [], [], [], set()
        self.solids = set()
        self.open_parts = self.parts_with_eyes = self.torn = self.with_eyes_below = 0

    def add(self, ring, is_double, group):
        """A ring of points in space, counterclockwise from its front."""
        self.fans.append([(ring[0], ring[k], ring[k + 1]) for k in range(1, len(ring) - 1)])
        self.is_double.append(is_double)
        self.group.append(group)

    def next_group(self):
        return max(self.group, default=-1) + 1

    def close(self):
        """The triangles of all pieces, and for each the number of its piece."""
        self.cost = numpy.array([len(fan) for fan in self.fans], numpy.int64)
        self.owner = numpy.repeat(numpy.arange(len(self.fans)), self.cost)
        flat = [triangle for fan in self.fans for triangle in fan]
        self.corners = numpy.array(flat, float).reshape(-1, 3, 3)
        self.is_double, self.group = numpy.array(self.is_double, bool), numpy.array(self.group, numpy.int64)
        del self.fans
        return self

    def meet_points(self, points, reach):
        """Corners of patches that are as near as this to one of some points are moved there, so that neighbours which
        share points in the model do here too."""
        is_patch = ~numpy.isin(self.group, sorted(self.sheets | self.solids))[self.owner]
        corners = self.corners[is_patch].reshape(-1, 3)
        distance, number = cKDTree(points).query(corners, distance_upper_bound=reach)
        met = numpy.isfinite(distance)
        corners[met] = points[number[met]]
        self.corners[is_patch] = corners.reshape(-1, 3, 3)

    def triangles_of(self, pieces):
        """The triangles of some pieces, in their order, and whether each is double."""
        ends = numpy.cumsum(self.cost)
        numbers = numpy.concatenate([numpy.arange(ends[k] - self.cost[k], ends[k]) for k in pieces] or [[]])
        numbers = numbers.astype(numpy.int64)
        return self.corners[numbers], self.is_double[self.owner[numbers]]
