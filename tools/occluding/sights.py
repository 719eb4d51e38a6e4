"""Views as grids of samples, and which triangles cover which samples, how near."""
import dataclasses

import numpy

# So many pairs of a triangle and a sample are looked at in one go.
CHUNK = 2_000_000


@dataclasses.dataclass
class Sight:
    """An eye and its grid: directions for columns and rows of samples, each of 1 ahead, from the near distance on."""

    eye: numpy.ndarray
    right: numpy.ndarray
    up: numpy.ndarray
    ahead: numpy.ndarray
    wide: float
    tall: float
    columns: int
    rows: int
    near: float

    def count(self):
        return self.columns * self.rows

    def steps(self):
        """How far right each column and how far up each row of samples is, at 1 ahead."""
        x = ((numpy.arange(self.columns) + 0.5) / self.columns * 2 - 1) * self.wide
        y = (1 - (numpy.arange(self.rows) + 0.5) / self.rows * 2) * self.tall
        return x, y

    def seen(self, points):
        """Points by how far they are right, up and ahead of the eye."""
        away = points - self.eye
        return numpy.stack([away @ self.right, away @ self.up, away @ self.ahead], axis=-1)


def sight_of(view, aspect, samples, near):
    """The grid of about so many samples for a view."""
    rows = max(8, round((samples / aspect) ** 0.5))
    tall = float(numpy.tan(view.height / 2))
    axes = [numpy.array(axis, float) for axis in (view.eye, view.right, view.up, view.ahead)]
    return Sight(*axes, tall * aspect, tall, max(8, round(rows * aspect)), rows, near)


def frames_around(sight, seen):
    """For triangles as they are seen: the first and the last column and row of samples that each may cover."""
    x, y, w = seen[..., 0], seen[..., 1], seen[..., 2]
    is_before = (w >= sight.near).all(axis=1)
    depth = numpy.where(is_before[:, None], w, 1)
    across = (x / depth / sight.wide + 1) / 2 * sight.columns - 0.5
    down = (1 - y / depth / sight.tall) / 2 * sight.rows - 0.5
    x0, x1 = numpy.ceil(across.min(axis=1) - 1e-6), numpy.floor(across.max(axis=1) + 1e-6)
    y0, y1 = numpy.ceil(down.min(axis=1) - 1e-6), numpy.floor(down.max(axis=1) + 1e-6)
    # what reaches behind the near plane may be anywhere
    low = [numpy.where(is_before, part, 0) for part in (x0, y0)]
    high = [numpy.where(is_before, part, size - 1) for part, size in ((x1, sight.columns), (y1, sight.rows))]
    limits = (sight.columns - 1, sight.rows - 1)
    low = [numpy.clip(part, 0, most + 1).astype(numpy.int64) for part, most in zip(low, limits)]
    high = [numpy.clip(part, -1, most).astype(numpy.int64) for part, most in zip(high, limits)]
    outside = (w < sight.near).all(axis=1)
    for beside, reach in ((x, sight.wide), (y, sight.tall)):
        outside |= (beside > reach * w).all(axis=1) | (-beside > reach * w).all(axis=1)
    return low, [numpy.where(outside, -1, part) for part in high]


def covered(sight, corners, is_double):
    """Which samples triangles cover: yields arrays of triangles, samples, and nearness, one over the distance ahead.

    Only from their front, where they aren't double."""
    seen = sight.seen(corners)
    normal = numpy.cross(seen[:, 1] - seen[:, 0], seen[:, 2] - seen[:, 0])
    level = numpy.einsum("ij,ij->i", normal, seen[:, 0])
    # right, up and ahead are a left-handed frame, in which a front's plane is before the eye
    faces = level > 0
    low, high = frames_around(sight, seen)
    wide, tall = high[0] - low[0] + 1, high[1] - low[1] + 1
    drawn = numpy.flatnonzero((wide > 0) & (tall > 0) & (faces | (is_double & (level < 0))))
    if not len(drawn):
        return
    edges = numpy.cross(seen[drawn], seen[drawn][:, [1, 2, 0]])
    # inside is where the three products are of one sign: above 0 for a front
    edges *= numpy.where(faces[drawn], 1, -1)[:, None, None]
    slope = normal[drawn] / level[drawn][:, None]
    sizes = (wide * tall)[drawn]
    x, y = sight.steps()
    for first, end in chunks(sizes):
        one = numpy.repeat(numpy.arange(first, end), sizes[first:end])
        some = sizes[first:end]
        place = numpy.arange(len(one)) - numpy.repeat(numpy.cumsum(some) - some, some)
        number = drawn[one]
        column = low[0][number] + place % wide[number]
        row = low[1][number] + place // wide[number]
        across, up = x[column], y[row]
        inside = numpy.ones(len(one), bool)
        for k in range(3):
            m = edges[one, k]
            inside &= m[:, 0] * across + m[:, 1] * up + m[:, 2] >= 0
        one, column, row, across, up = (part[inside] for part in (one, column, row, across, up))
        nearness = slope[one, 0] * across + slope[one, 1] * up + slope[one, 2]
        good = (nearness > 0) & (nearness * sight.near <= 1)
        yield drawn[one[good]], (row * sight.columns + column)[good], nearness[good]


def chunks(sizes):
    """Ranges of rows whose sizes sum up to about a chunk."""
    first, total = 0, 0
    for number, size in enumerate(sizes.tolist()):
        if total and total + size > CHUNK:
            yield first, number
            first, total = number, 0
        total += size
    yield first, len(sizes)


def nearest(sight, corners, is_double):
    """For each sample how near the nearest triangle is, 0 where there is none, and its number, or -1."""
    depth, owner = numpy.zeros(sight.count()), numpy.full(sight.count(), -1)
    for number, sample, nearness in covered(sight, corners, is_double):
        order = numpy.argsort(nearness, kind="stable")
        number, sample, nearness = number[order], sample[order], nearness[order]
        # of equal samples the last one stays, which is the nearest
        last = len(sample) - 1 - numpy.unique(sample[::-1], return_index=True)[1]
        number, sample, nearness = number[last], sample[last], nearness[last]
        better = nearness > depth[sample]
        depth[sample[better]], owner[sample[better]] = nearness[better], number[better]
    return depth, owner
