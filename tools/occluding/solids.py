"""Solids: boxes that lie wholly inside closed parts, whose faces are behind the surface from every eye outside.

A part is looked at in the coordinates of its own mesh, cut into cells. A cell that no triangle touches is wholly inside
where the surface goes around its middle at least once, fronts outwards: a ray from outside, around which it goes less
often, then passes a front before it comes there."""
import numpy
from scipy import ndimage

from .patches import components
from .soup import directed_edges

# Cells along the longest side, boxes in a part, and the least part of the inner cells that a box has for itself.
CELLS, MOST_BOXES, LEAST_SHARE = 40, 10, 0.02
# A part of fewer triangles has its flat sides as patches, and so has one whose planes have many triangles each.
LEAST_TRIANGLES, LEAST_PLANES = 40, 0.34
CHUNK = 2_000_000
FACES = ((0, 4, 6, 2), (1, 3, 7, 5), (0, 1, 5, 4), (2, 6, 7, 3), (0, 2, 3, 1), (4, 5, 7, 6))


class Solids:
    """The boxes of parts; those of equal meshes are found once."""

    def __init__(self, soup, eyes):
        self.soup, self.eyes, self.known = soup, eyes, {}
        order = numpy.argsort(soup.part, kind="stable")
        begins = numpy.searchsorted(soup.part[order], numpy.arange(len(soup.names) + 1))
        self.members = [order[begin:end] for begin, end in zip(begins, begins[1:])]
        self.open_parts = self.parts_with_eyes = 0

    def is_round(self, part, labels):
        """Whether a part is more than its flat sides."""
        members = self.members[part]
        planes = len(numpy.unique(labels[members]))
        return len(members) >= LEAST_TRIANGLES and planes > LEAST_PLANES * len(members)

    def in_own_place(self, part, turn, move, is_mirror):
        """The points of a part in the coordinates of its mesh, and its triangles as they are there."""
        triangles = self.soup.triangles[self.members[part]]
        points, triangles = in_order(triangles[:, [0, 2, 1]] if is_mirror else triangles)
        return numpy.linalg.solve(turn, (self.soup.points[points] - move).T).T, triangles

    def holds_eye(self, corners, turn, move):
        """Whether one of the eyes is in a part, from where its boxes would hide what is seen."""
        low, high = corners.min(axis=(0, 1)), corners.max(axis=(0, 1))
        eyes = numpy.linalg.solve(turn, (self.eyes - move).T).T
        within = ((eyes > low) & (eyes < high)).all(axis=1)
        return any(goes_around(corners, eye) for eye in eyes[within])

    def faces_of(self, part):
        """The faces of the boxes of a part, each four corners in the model, counterclockwise from outside."""
        place = self.soup.places[part]
        turn, move = place[:, :3], place[:, 3]
        flips = numpy.linalg.det(turn)
        if flips == 0:
            return
        own, triangles = self.in_own_place(part, turn, move, flips < 0)
        size, scale = float(numpy.ptp(own, axis=0).max()), float(numpy.linalg.svd(turn, compute_uv=False).min())
        if not size:
            return
        near = self.soup.rounding / scale
        key = (len(own), triangles.tobytes())
        found = [boxes for other, boxes in self.known.get(key, ()) if numpy.abs(other - own).max() <= near]
        if not found:
            found = [boxes_in(own, triangles)]
            self.known.setdefault(key, []).append((own, found[0]))
        boxes, has_open = found[0]
        self.open_parts += has_open
        if boxes and self.holds_eye(own[triangles], turn, move):
            self.parts_with_eyes += 1
            return
        inset = 3 * near
        for low, high in boxes:
            low, high = low + inset, high - inset
            if (low < high).all():
                corners = numpy.array([[(low, high)[k >> axis & 1][axis] for axis in range(3)] for k in range(8)])
                solid = corners @ turn.T + move
                for face in FACES:
                    yield solid[list(face[:: 1 if flips > 0 else -1])]


def in_order(triangles):
    """The points in the order in which triangles first name them, and the triangles by their places there."""
    points, first, numbers = numpy.unique(triangles, return_index=True, return_inverse=True)
    order = numpy.argsort(first)
    place = numpy.empty(len(points), numpy.int64)
    place[order] = numpy.arange(len(points))
    return points[order], place[numbers.reshape(-1, 3)]


def boxes_in(points, triangles):
    """Boxes inside the closed pieces of some triangles, as pairs of corners, and whether a piece isn't closed."""
    closed = closed_pieces(len(points), triangles)
    has_open = not closed.all()
    if not closed.any():
        return [], has_open
    corners = points[triangles[closed]]
    low, high = corners.reshape(-1, 3).min(axis=0), corners.reshape(-1, 3).max(axis=0)
    size = high - low
    if not (size > 0).all():
        return [], has_open
    cells = numpy.clip(numpy.round(size / size.max() * CELLS), 4, CELLS).astype(int)
    step = size / cells
    touched = touched_cells(corners, low, step, cells)
    inside = ~touched & (windings(corners, low, step, cells) >= 1)
    boxes = [(low + begin * step, low + end * step) for begin, end in grown(inside)]
    return boxes, has_open


def closed_pieces(count, triangles):
    """Of each triangle whether its piece is closed: that runs along each edge as often one way as the other."""
    piece = components(count, *directed_edges(triangles).T)[triangles[:, 0]]
    edges = directed_edges(triangles)
    low, high = edges.min(axis=1), edges.max(axis=1)
    _, number = numpy.unique(numpy.stack([low, high], axis=1), axis=0, return_inverse=True)
    sums = numpy.bincount(number.reshape(-1), numpy.where(edges[:, 0] < edges[:, 1], 1, -1))
    is_open = numpy.zeros(piece.max() + 1, bool)
    is_open[numpy.repeat(piece, 3)[sums[number.reshape(-1)] != 0]] = True
    return ~is_open[piece]


def cells_by_triangle(corners, low, step, cells):
    """Pairs of a triangle and a cell in the box around it, a chunk after another."""
    first = numpy.clip(numpy.floor((corners.min(axis=1) - low) / step - 1e-9), 0, cells - 1).astype(numpy.int64)
    last = numpy.clip(numpy.floor((corners.max(axis=1) - low) / step + 1e-9), 0, cells - 1).astype(numpy.int64)
    spans = last - first + 1
    counts = spans.prod(axis=1)
    ends = numpy.cumsum(counts)
    begin = 0
    while begin < len(counts):
        base = ends[begin] - counts[begin]
        end = max(begin + 1, int(numpy.searchsorted(ends, base + CHUNK)))
        owner = numpy.repeat(numpy.arange(begin, end), counts[begin:end])
        place = numpy.arange(len(owner)) - (ends[owner] - counts[owner] - base)
        wide, tall = spans[owner, 0], spans[owner, 1]
        yield owner, first[owner] + numpy.stack([place % wide, place // wide % tall, place // (wide * tall)], axis=1)
        begin = end


def touched_cells(corners, low, step, cells):
    """Of each cell whether a triangle touches it: where no axis keeps them apart."""
    touched, half = numpy.zeros(cells, bool), step / 2 * (1 + 1e-9)
    normals = numpy.cross(corners[:, 1] - corners[:, 0], corners[:, 2] - corners[:, 0])
    for owner, cell in cells_by_triangle(corners, low, step, cells):
        local = corners[owner] - (low + (cell + 0.5) * step)[:, None]
        off = numpy.einsum("ij,ij->i", local[:, 0], normals[owner])
        meets = numpy.abs(off) <= numpy.abs(normals[owner]) @ half
        for k in range(3):
            edge = local[:, (k + 1) % 3] - local[:, k]
            for axis in range(3):
                away = numpy.cross(numpy.eye(3)[axis], edge)
                along = numpy.einsum("ijk,ik->ij", local, away)
                reach = numpy.abs(away) @ half
                meets &= (along.min(axis=1) <= reach) & (along.max(axis=1) >= -reach)
        touched[tuple(cell[meets].T)] = True
    return touched


def windings(corners, low, step, cells):
    """How often the surface goes around the middle of each cell: what a ray along x passes, fronts less backs."""
    passed = numpy.zeros((cells[0] + 1, cells[1], cells[2]), numpy.int64)
    flat_low, flat_step, flat_cells = (numpy.array([0.0, *part[1:]]) for part in (low, step, cells))
    flat = corners * [0, 1, 1]
    flat_step[0], flat_cells[0] = 1.0, 1
    for owner, cell in cells_by_triangle(flat, flat_low, flat_step, flat_cells.astype(int)):
        place = low[1:] + (cell[:, 1:] + 0.5) * step[1:]
        turn = turns_over(corners[owner], place)
        owner, cell, place, turn = (part[turn != 0] for part in (owner, cell, place, turn))
        at = level_at(corners[owner], place)
        reached = numpy.clip(numpy.ceil((at - low[0]) / step[0] - 0.5), 0, cells[0]).astype(int)
        # a front that looks along x is left by the ray: it adds one for all cells before it
        numpy.add.at(passed, (reached, cell[:, 1], cell[:, 2]), turn)
    return passed[::-1].cumsum(axis=0)[::-1][1:]


def goes_around(corners, point):
    """Whether a closed surface goes around a point, fronts outwards."""
    place = numpy.broadcast_to(point[1:], (len(corners), 2))
    turn = turns_over(corners, place)
    passed = turn != 0
    return bool(turn[passed][level_at(corners[passed], place[passed]) > point[0]].sum() >= 1)


def turns_over(corners, place):
    """Of triangles over places of the last two coordinates 1 for a front along the first one, -1 for a back, else 0."""
    sides = [side_of(corners[:, k, 1:], corners[:, (k + 1) % 3, 1:], place) for k in range(3)]
    return numpy.where(sides[0] & sides[1] & sides[2], 1, numpy.where(sides[0] | sides[1] | sides[2], 0, -1))


def side_of(a, b, place):
    """Whether a place is left of the line from a to b, told in the same way for both triangles at an edge."""
    swapped = (a[:, 0] > b[:, 0]) | ((a[:, 0] == b[:, 0]) & (a[:, 1] > b[:, 1]))
    p, q = numpy.where(swapped[:, None], b, a), numpy.where(swapped[:, None], a, b)
    off = (q[:, 0] - p[:, 0]) * (place[:, 1] - p[:, 1]) - (q[:, 1] - p[:, 1]) * (place[:, 0] - p[:, 0])
    # what is on the line is as if it were a little further along its second axis, then its first
    is_left = (off > 0) | ((off == 0) & ((q[:, 0] > p[:, 0]) | (q[:, 1] < p[:, 1])))
    return is_left ^ swapped


def level_at(corners, place):
    """The first coordinate of a triangle over a place of the other two."""
    a, b, c = (corners[:, k] for k in range(3))
    normal = numpy.cross(b - a, c - a)
    rest = normal[:, 1] * (place[:, 0] - a[:, 1]) + normal[:, 2] * (place[:, 1] - a[:, 2])
    return a[:, 0] - rest / numpy.where(normal[:, 0] != 0, normal[:, 0], 1)


def grown(inside):
    """Boxes of inner cells, as their first cell and the one behind their last, each from where most room is left."""
    left, whole = inside.copy(), int(inside.sum())
    if not whole:
        return
    room = ndimage.distance_transform_cdt(numpy.pad(inside, 1), metric="chessboard")[1:-1, 1:-1, 1:-1]
    for _ in range(MOST_BOXES):
        seed = numpy.unravel_index(int((room * left).argmax()), room.shape)
        if not left[seed]:
            return
        begin, end = best_box(inside, left, numpy.array(seed))
        cells = tuple(map(slice, begin, end))
        if int(left[cells].sum()) < LEAST_SHARE * whole:
            # too small to be worth it: on with the next place
            left[seed] = False
            continue
        left[cells] = False
        yield begin, end


def best_box(inside, left, seed):
    """The box around a cell that has most cells which are left, grown along the axes in one order or another."""
    best, found = -1, None
    for order in ((0, 1, 2), (0, 2, 1), (1, 0, 2), (1, 2, 0), (2, 0, 1), (2, 1, 0)):
        for evenly in (True, False):
            begin, end = seed.copy(), seed + 1
            if evenly:
                grow_evenly(inside, begin, end)
            for axis in order:
                while grow(inside, begin, end, axis, 0) or grow(inside, begin, end, axis, 1):
                    pass
            count = int(left[tuple(map(slice, begin, end))].sum())
            if count > best:
                best, found = count, (begin, end)
    return found


def grow_evenly(inside, begin, end):
    while all([grow(inside, begin, end, axis, side) for axis in range(3) for side in (0, 1)]):
        pass


def grow(inside, begin, end, axis, side):
    """Moves one face of a box by a cell, where all cells there are inner ones."""
    place = end[axis] if side else begin[axis] - 1
    if not 0 <= place < inside.shape[axis]:
        return False
    cells = [slice(a, b) for a, b in zip(begin, end)]
    cells[axis] = place
    if not inside[tuple(cells)].all():
        return False
    if side:
        end[axis] += 1
    else:
        begin[axis] -= 1
    return True
