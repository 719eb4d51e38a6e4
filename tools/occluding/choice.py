"""Which pieces are taken: greedily by what each adds over some views, for each of its triangles."""
import heapq

import numpy

from .sights import covered, nearest

# The nearness of a closed sample is worth what it may hide, told apart in so many steps.
LAYERS = 16
# What all closed samples of a view are worth, as a part of what all its hidden objects are.
CLOSED_WORTH = 1.0
# What each halving of a closed sample's distance adds, as a part of what closing it is worth: other things may come.
CLOSER_WORTH = 0.03


class Worth:
    """What it is worth to close a sample at some nearness: something in any case, and more for each object behind it
    that the model hides. An object is worth the same whatever its size."""

    def __init__(self, sights, depths, boxes):
        self.offsets = numpy.cumsum([0] + [sight.count() for sight in sights])
        self.tables, self.steps, self.closer = [], [], []
        for sight, depth in zip(sights, depths):
            steps, table = layers_of(sight, depth, boxes)
            total = max(float(table[-1].sum()), 1.0)
            closed = depth > 0
            each = CLOSED_WORTH * total / max(int(closed.sum()), 1)
            self.steps.append(steps)
            self.tables.append(table + numpy.float32(each))
            self.closer.append((CLOSER_WORTH * each, depth[closed].min(initial=numpy.inf)))

    def values(self, view, sample, nearness):
        layer = numpy.searchsorted(self.steps[view], nearness)
        each, farthest = self.closer[view]
        return self.tables[view][layer, sample] + each * numpy.log2(numpy.maximum(nearness / farthest, 1))


def layers_of(sight, depth, boxes):
    """Steps of nearness, and how much is hidden at each sample by what is nearer than the step before."""
    rectangles, nearness = rectangles_of(sight, boxes)
    hidden = []
    picture = depth.reshape(sight.rows, sight.columns)
    for (x0, y0, x1, y1), near in zip(rectangles, nearness):
        if x0 < x1 and y0 < y1 and picture[y0:y1, x0:x1].min() > near:
            hidden.append((near, x0, y0, x1, y1))
    hidden.sort()
    steps = numpy.array([row[0] for row in hidden])
    steps = numpy.unique(steps[numpy.linspace(0, len(steps) - 1, LAYERS).round().astype(int)]) if len(steps) else steps
    table = numpy.zeros((len(steps) + 1, sight.rows, sight.columns), numpy.float32)
    for near, x0, y0, x1, y1 in hidden:
        layer = int(numpy.searchsorted(steps, near)) + 1
        table[min(layer, len(steps)), y0:y1, x0:x1] += 1 / ((x1 - x0) * (y1 - y0))
    numpy.cumsum(table, axis=0, out=table)
    return steps, table.reshape(len(steps) + 1, -1)


def rectangles_of(sight, boxes):
    """The samples around each box, cut to the screen, empty where it reaches behind the near plane; its nearness."""
    corners = numpy.stack([boxes[:, [i, j, k]] for i in (0, 3) for j in (1, 4) for k in (2, 5)], axis=1)
    seen = sight.seen(corners)
    x, y, w = seen[..., 0], seen[..., 1], seen[..., 2]
    is_before = (w >= sight.near).all(axis=1)
    depth = numpy.where(is_before[:, None], w, 1)
    across = (x / depth / sight.wide + 1) / 2 * sight.columns
    down = (1 - y / depth / sight.tall) / 2 * sight.rows
    ends = [numpy.floor(across.min(axis=1)), numpy.floor(down.min(axis=1)), numpy.ceil(across.max(axis=1)),
            numpy.ceil(down.max(axis=1))]
    limits = (sight.columns, sight.rows, sight.columns, sight.rows)
    rectangles = numpy.stack([numpy.clip(end, 0, limit) for end, limit in zip(ends, limits)], axis=1).astype(int)
    rectangles[~is_before] = 0
    return rectangles, 1 / depth.min(axis=1)


class Gains:
    """For each piece the samples that it covers, over all views, and what each is worth."""

    def __init__(self, pool, sights, worth, told):
        owners, samples, values = [], [], []
        double = pool.is_double[pool.owner]
        for view, sight in enumerate(told(sights)):
            for triangle, sample, nearness in covered(sight, pool.corners, double):
                owners.append(pool.owner[triangle].astype(numpy.int32))
                samples.append((worth.offsets[view] + sample).astype(numpy.int32))
                values.append(worth.values(view, sample, nearness).astype(numpy.float32))
        owner = numpy.concatenate(owners or [numpy.zeros(0, numpy.int32)])
        order = numpy.argsort(owner, kind="stable")
        self.samples = numpy.concatenate(samples or [owner])[order]
        self.values = numpy.concatenate(values or [owner.astype(numpy.float32)])[order]
        self.begins = numpy.searchsorted(owner[order], numpy.arange(len(pool.cost) + 1))
        self.cost, self.count = pool.cost, int(worth.offsets[-1])

    def of(self, piece):
        ends = slice(self.begins[piece], self.begins[piece + 1])
        return self.samples[ends], self.values[ends]


def chosen_pieces(gains, most):
    """Pieces of at most so many triangles: those that add most, then without those that others make needless."""
    chosen = []
    for _ in range(4):
        before = list(chosen)
        chosen = filled(gains, chosen, most)
        if chosen == before:
            break
        chosen = needed(gains, chosen)
    return filled(gains, chosen, most)


def filled(gains, chosen, most):
    """With more pieces, the one that adds most for each triangle first, until none adds anything or fits."""
    held, left = held_by(gains, chosen), most - int(gains.cost[chosen].sum())
    chosen, taken = list(chosen), set(chosen)

    def added(piece):
        samples, values = gains.of(piece)
        return float(numpy.maximum(values - held[samples], 0).sum()) / gains.cost[piece]

    waiting = [(-added(piece), piece) for piece in range(len(gains.cost)) if piece not in taken]
    heapq.heapify(waiting)
    while waiting and left > 0:
        _, piece = heapq.heappop(waiting)
        if gains.cost[piece] > left:
            continue
        now = added(piece)
        if now <= 0:
            continue
        if waiting and -now > waiting[0][0]:
            heapq.heappush(waiting, (-now, piece))
            continue
        samples, values = gains.of(piece)
        held[samples] = numpy.maximum(held[samples], values)
        chosen.append(piece)
        left -= int(gains.cost[piece])
    return chosen


def with_whole_sheets(pool, chosen, most):
    """With the rest of each sheet of which something is taken, where it fits: other eyes see it too."""
    left, chosen = most - int(pool.cost[chosen].sum()), list(chosen)
    for group in sorted(set(pool.group[chosen].tolist()) & pool.sheets):
        rest = sorted(set(numpy.flatnonzero(pool.group == group).tolist()) - set(chosen))
        chosen += rest[:left]
        left -= len(rest[:left])
    return chosen


def held_by(gains, chosen):
    held = numpy.zeros(gains.count, numpy.float32)
    for piece in chosen:
        samples, values = gains.of(piece)
        held[samples] = numpy.maximum(held[samples], values)
    return held


def needed(gains, chosen):
    """Without pieces that add, beside all others, less for each triangle than the last one that was taken."""
    if not chosen:
        return chosen
    best, second = numpy.zeros(gains.count, numpy.float32), numpy.zeros(gains.count, numpy.float32)
    for piece in chosen:
        samples, values = gains.of(piece)
        second[samples] = numpy.maximum(second[samples], numpy.minimum(best[samples], values))
        best[samples] = numpy.maximum(best[samples], values)

    def own(piece):
        samples, values = gains.of(piece)
        return float(numpy.where(values >= best[samples], values - second[samples], 0).sum()) / gains.cost[piece]

    owns = {piece: own(piece) for piece in chosen}
    least = sorted(owns.values())[len(chosen) // 20]
    # one after another, since two may need each other's absence
    kept = list(chosen)
    for piece in sorted(chosen, key=lambda piece: (owns[piece], piece))[: len(chosen) // 20]:
        if owns[piece] <= least:
            kept.remove(piece)
    return kept


def share_closed(sights, corners, is_double):
    """Which part of all samples some triangles close."""
    closed = [nearest(sight, corners, is_double)[0] > 0 for sight in sights]
    return float(numpy.concatenate(closed).mean()) if closed else 0.0
