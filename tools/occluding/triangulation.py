"""A polygon with holes as convex parts: triangles that are cut off as ears, joined where they stay convex."""
import numpy


def turn(a, b, c):
    """Above 0 where a, b, c turn left."""
    return (b[0] - a[0]) * (c[1] - a[1]) - (b[1] - a[1]) * (c[0] - a[0])


def convex_parts(rings):
    """Convex rings that make up the polygon of an outline and holes; none where its lines are in a knot."""
    ring = joined_ring([list(map(tuple, ring)) for ring in rings])
    triangles = ears(ring) if ring else []
    return [numpy.array(part) for part in merged(triangles)]


def joined_ring(rings):
    """One ring for all, a hole after the other joined to it by two bridges at one place."""
    ring = rings[0]
    for hole in sorted(rings[1:], key=lambda hole: -max(hole)[0]):
        others = [point for other in rings if other is not hole for point in other]
        bridge = bridge_to(ring, hole, others)
        if bridge is None:
            return None
        place, first = bridge
        ring = ring[: place + 1] + hole[first:] + hole[: first + 1] + ring[place:]
    return ring


def bridge_to(ring, hole, others):
    """The places of two points, in the ring and in the hole, that see each other."""
    first = max(range(len(hole)), key=lambda number: hole[number])
    at = hole[first]
    nearest = sorted(range(len(ring)), key=lambda k: (ring[k][0] - at[0]) ** 2 + (ring[k][1] - at[1]) ** 2)
    edges = list(zip(ring, ring[1:] + ring[:1])) + list(zip(hole, hole[1:] + hole[:1]))
    for place in nearest:
        if opens_to(ring, place, at) and not any(crosses(ring[place], at, *edge) for edge in edges):
            return place, first
    return None


def opens_to(ring, place, at):
    """Whether a point of the ring has another one on its inner side."""
    before, here, after = ring[place - 1], ring[place], ring[(place + 1) % len(ring)]
    left, right = turn(here, after, at) > 0, turn(before, here, at) > 0
    return left and right if turn(before, here, after) > 0 else left or right


def crosses(a, b, c, d):
    """Whether two segments meet elsewhere than at ends that they share."""
    if {a, b} & {c, d}:
        return False
    one, other = turn(a, b, c), turn(a, b, d)
    if (one > 0) == (other > 0) and one and other:
        return False
    one, other = turn(c, d, a), turn(c, d, b)
    return not ((one > 0) == (other > 0) and one and other)


def ears(ring):
    """The triangles of a ring: one that holds no other point is cut off, the largest angle's last."""
    left, triangles = list(ring), []
    while len(left) > 3:
        ear = best_ear(left)
        if ear is None:
            return []
        triangles.append((left[ear - 1], left[ear], left[(ear + 1) % len(left)]))
        del left[ear]
    triangles.append(tuple(left))
    return [triangle for triangle in triangles if turn(*triangle) > 0]


def best_ear(ring):
    """The ear whose triangle is widest for its longest side, or None."""
    best, found = 0.0, None
    points = numpy.array(ring)
    for place in range(len(ring)):
        a, b, c = ring[place - 1], ring[place], ring[(place + 1) % len(ring)]
        area = turn(a, b, c)
        if area < 0:
            continue
        longest = max((p[0] - q[0]) ** 2 + (p[1] - q[1]) ** 2 for p, q in ((a, b), (b, c), (c, a)))
        shape = area / longest if longest else 1.0
        if (area == 0 or shape > best) and not holds_point(points, a, b, c):
            if area == 0:
                return place
            best, found = shape, place
    return found


def holds_point(points, a, b, c):
    """Whether a triangle has a point of the ring in it, or on its edges, that isn't one of its corners."""
    x, y = points[:, 0], points[:, 1]
    inside = numpy.ones(len(points), bool)
    for p, q in ((a, b), (b, c), (c, a)):
        inside &= (q[0] - p[0]) * (y - p[1]) - (q[1] - p[1]) * (x - p[0]) >= 0
    for corner in (a, b, c):
        inside &= (x != corner[0]) | (y != corner[1])
    return bool(inside.any())


def merged(triangles):
    """Triangles as fewer convex rings: over each shared edge, the longest first, where the ring stays convex."""
    parts, owner = {number: list(triangle) for number, triangle in enumerate(triangles)}, {}
    for number, triangle in parts.items():
        for a, b in zip(triangle, triangle[1:] + triangle[:1]):
            owner[a, b] = number
    shared = sorted(((a, b) for a, b in owner if (b, a) in owner and a < b),
                    key=lambda edge: (-((edge[0][0] - edge[1][0]) ** 2 + (edge[0][1] - edge[1][1]) ** 2), edge))
    for a, b in shared:
        one, other = owner[a, b], owner[b, a]
        if one == other:
            continue
        ring = over_edge(parts[one], parts[other], a, b)
        if ring is not None:
            parts[one] = ring
            for edge in zip(parts[other], parts[other][1:] + parts[other][:1]):
                owner[edge] = one
            del parts[other]
    return list(parts.values())


def over_edge(one, other, a, b):
    """The ring of two rings without the edge from a to b of the first, or None where it isn't convex."""
    first, second = one.index(b), other.index(a)
    ring = one[first:] + one[:first]
    ring = ring + (other[second:] + other[:second])[1:-1]
    sides = zip(ring[-1:] + ring[:-1], ring, ring[1:] + ring[:1])
    return ring if all(turn(*side) >= 0 for side in sides) else None
