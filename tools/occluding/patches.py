"""Patches: coplanar, connected triangles of one side as polygons with holes, moved inwards by the rounding."""
import dataclasses

import numpy
from scipy.sparse import coo_matrix
from scipy.sparse.csgraph import connected_components
from scipy.spatial import cKDTree
from shapely.geometry import MultiPolygon, Point, Polygon
from shapely.ops import unary_union
from shapely.prepared import prep

from .soup import directed_edges, planes_of

# How far an outline moves inwards, and how wide a gap between triangles is closed, in roundings.
INSET, CLOSED = 1.0, 0.25
MITRE = 2


@dataclasses.dataclass
class Plane:
    """A plane of a patch: a point of it, two directions along it, and the normal, from which its front is seen."""

    origin: numpy.ndarray
    along: numpy.ndarray
    across: numpy.ndarray
    normal: numpy.ndarray

    def flat(self, points):
        away = points - self.origin
        return numpy.stack([away @ self.along, away @ self.across], axis=-1)

    def solid(self, places):
        places = numpy.asarray(places, float)
        return self.origin + places[:, :1] * self.along + places[:, 1:] * self.across


@dataclasses.dataclass
class Patch:
    """A polygon on a plane, within what is drawn."""

    plane: Plane
    polygon: Polygon
    is_double: bool


def coplanar_sets(soup):
    """Lists of triangles that lie in one plane and have one side: the number of its set for each triangle, or -1."""
    corners = soup.corners()
    normals, areas, has_normal = planes_of(corners)
    first, second = neighbours(soup.triangles)
    same = soup.is_double[first] == soup.is_double[second]
    same &= has_normal[first] & has_normal[second]
    same &= numpy.einsum("ij,ij->i", normals[first], normals[second]) > 0.999
    for a, b in ((first, second), (second, first)):
        off = numpy.einsum("ijk,ik->ij", corners[b] - corners[a][:, :1], normals[a])
        same &= numpy.abs(off).max(axis=1) <= soup.rounding
    labels = components(len(corners), first[same], second[same])
    labels = parted(soup, labels, normals, areas)
    labels = in_one_plane(soup, labels, normals, areas)
    return numpy.where(has_normal & (areas > 0), labels, -1)


def neighbours(triangles):
    """Pairs of triangles that share an edge which they run along in opposite directions."""
    edges = directed_edges(triangles)
    low, high = edges.min(axis=1), edges.max(axis=1)
    is_forward = edges[:, 0] < edges[:, 1]
    owner = numpy.repeat(numpy.arange(len(triangles)), 3)
    order = numpy.lexsort((is_forward, high, low))
    low, high, is_forward, owner = low[order], high[order], is_forward[order], owner[order]
    pairs = []
    # an edge of more than two triangles has its like beyond the next one
    for step in (1, 2, 3):
        meets = (low[step:] == low[:-step]) & (high[step:] == high[:-step]) & (is_forward[step:] != is_forward[:-step])
        places = numpy.flatnonzero(meets)
        pairs.append((owner[places], owner[places + step]))
    return tuple(numpy.concatenate(side) for side in zip(*pairs))


def components(count, first, second):
    graph = coo_matrix((numpy.ones(len(first), bool), (first, second)), shape=(count, count))
    return connected_components(graph, directed=False)[1]


def fitted(soup, labels, normals, areas):
    """For each set its unit normal by area, its middle offset along it, and half of how far its points lie apart."""
    count = labels.max() + 1
    sums = numpy.stack([numpy.bincount(labels, normals[:, k] * areas, count) for k in range(3)], axis=1)
    length = numpy.linalg.norm(sums, axis=1)
    planes = sums / numpy.where(length > 0, length, 1)[:, None]
    off = numpy.einsum("ijk,ik->ij", soup.corners(), planes[labels])
    low, high = numpy.full(count, numpy.inf), numpy.full(count, -numpy.inf)
    numpy.minimum.at(low, labels, off.min(axis=1))
    numpy.maximum.at(high, labels, off.max(axis=1))
    return planes, (low + high) / 2, (high - low) / 2


def parted(soup, labels, normals, areas):
    """Sets that bend by more than the rounding, as those of a smooth surface, come apart into their triangles."""
    _, _, thick = fitted(soup, labels, normals, areas)
    bent = thick[labels] > soup.rounding
    labels = labels.copy()
    labels[bent] = labels.max() + 1 + numpy.arange(bent.sum())
    return numpy.unique(labels, return_inverse=True)[1].reshape(-1)


def in_one_plane(soup, labels, normals, areas):
    """Sets that lie in one plane become one, so that walls which meet in the middle of an edge are joined."""
    planes, offsets, _ = fitted(soup, labels, normals, areas)
    middle = soup.points.mean(axis=0)
    places = numpy.column_stack([planes, (offsets - planes @ middle) / soup.size()])
    pairs = cKDTree(places).query_pairs(1e-6, output_type="ndarray")
    is_double = numpy.zeros(labels.max() + 1, bool)
    is_double[labels] = soup.is_double
    pairs = pairs[is_double[pairs[:, 0]] == is_double[pairs[:, 1]]]
    merged = components(len(planes), pairs[:, 0], pairs[:, 1])[labels]
    _, _, thick = fitted(soup, merged, normals, areas)
    bent = thick[merged] > soup.rounding
    merged = numpy.where(bent, merged.max() + 1 + labels, merged)
    return numpy.unique(merged, return_inverse=True)[1].reshape(-1)


def patches_of(soup, labels, seen, told):
    """The patches that have a triangle of these, which are seen."""
    order = numpy.argsort(labels, kind="stable")
    chosen = numpy.unique(labels[seen])
    chosen = chosen[chosen >= 0]
    begins = numpy.searchsorted(labels[order], chosen)
    ends = numpy.searchsorted(labels[order], chosen, side="right")
    is_seen = numpy.zeros(len(labels), bool)
    is_seen[seen] = True
    for begin, end in told(list(zip(begins, ends))):
        triangles = order[begin:end]
        yield from patches_in(soup, triangles, is_seen[triangles])


def patches_in(soup, triangles, is_seen):
    """The polygons of triangles in one plane, without those of which no triangle is seen."""
    corners = soup.corners(triangles)
    plane, thick = plane_under(corners)
    is_double = bool(soup.is_double[triangles[0]])
    if not is_double:
        # behind what is drawn, also when its points are stored in 32 bits
        plane.origin = plane.origin - plane.normal * (thick + soup.rounding / 2)
    flat = plane.flat(corners)
    polygons = polygons_of(flat, soup.rounding)
    middles = list(map(Point, flat[is_seen].mean(axis=1)))
    for polygon in polygons:
        if len(polygons) == 1 or any(map(prep(polygon).contains, middles)):
            yield Patch(plane, polygon, is_double)


def plane_under(corners):
    """The plane through triangles, its first direction along the edges that are longest in sum, and half of how far
    their points lie apart."""
    normals, areas, _ = planes_of(corners)
    normal = normals.T @ areas
    normal /= numpy.linalg.norm(normal)
    off = corners @ normal
    middle = corners.reshape(-1, 3).mean(axis=0)
    origin = middle + normal * ((off.min() + off.max()) / 2 - middle @ normal)
    edges = (corners[:, [1, 2, 0]] - corners).reshape(-1, 3)
    edges = edges - (edges @ normal)[:, None] * normal
    along = usual_direction(edges, normal)
    plane = Plane(origin, along, numpy.cross(normal, along), normal)
    return plane, float(off.max() - off.min()) / 2


def usual_direction(edges, normal):
    """The direction along which, or across which, most of the edges' length runs."""
    length = numpy.linalg.norm(edges, axis=1)
    longest = edges[length.argmax()] / length.max()
    side = numpy.cross(normal, longest)
    turn = numpy.degrees(numpy.arctan2(edges @ side, edges @ longest)) % 90
    bins = numpy.round(turn * 4).astype(int) % 360
    best = numpy.bincount(bins, length).argmax()
    member = numpy.flatnonzero(bins == best)
    edge = edges[member[length[member].argmax()]]
    return edge / numpy.linalg.norm(edge)


def polygons_of(flat, rounding):
    """The union of flat triangles, moved inwards: polygons with holes that have some area left."""
    grid = rounding / 4
    rounded = numpy.round(flat / grid) * grid
    if len(flat) == 1:
        whole = Polygon(rounded[0])
    else:
        whole = unary_union([part for part in map(Polygon, rounded) if part.is_valid and part.area > 0])
        closed = CLOSED * rounding
        whole = whole.buffer(closed, join_style=MITRE).buffer(-closed, join_style=MITRE).simplify(closed)
    inner = whole.buffer(-(INSET + CLOSED) * rounding, join_style=MITRE)
    parts = inner.geoms if isinstance(inner, MultiPolygon) else [inner]
    return [part for part in parts if not part.is_empty and part.area > 0]
