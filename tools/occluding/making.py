"""From a model to its occluders."""
import dataclasses
import math
import sys
import time

import numpy

from culling import transforms, views
from culling.document import ModelError
from culling.gltf import Model
from culling.occluders import Choice

from . import choice
from .covers import pieces_of
from .eyes import eyes_anywhere
from .patches import coplanar_sets, patches_of
from .pool import Pool
from .sheets import is_below_all, net_under, surfaces_of
from .sights import nearest, sight_of
from .solids import Solids
from .soup import soup_of
from .writing import glb_of

ASPECT, NEAR_PART = 16 / 9, 1000
# So many samples over all views, and in a view at most.
SAMPLES, MOST_SAMPLES = 480_000, 240_000
# A net has so many of the triangles that are asked for.
NET_SHARE = 0.96


@dataclasses.dataclass
class Wanted:
    """What is asked for."""

    most: int = 1000
    path: str = None
    anywhere: bool = False
    clear: str = None
    occluders: str = None
    height: float = None


def told(what):
    """Goes through a list; on a terminal it shows how far it is."""

    def through(rows):
        if not sys.stderr.isatty():
            yield from rows
            return
        last = 0.0
        for number, row in enumerate(rows, 1):
            if time.monotonic() - last > 0.2 or number == len(rows):
                last = time.monotonic()
                print(f"\r{what}: {number} of {len(rows)} ", end="", file=sys.stderr, flush=True)
            yield row
        print("\r\033[K", end="", file=sys.stderr, flush=True)

    return through


def views_for(model, wanted, soup):
    """The views for which occluders are chosen, and a word on which these are."""
    if wanted.path is not None:
        found = views.along(wanted.path, wanted.height or math.radians(60))
        return found, f"{len(found)} views along the path"
    if model.eyes and not wanted.anywhere:
        return [views.of_model(eye, wanted.height) for eye in model.eyes], f"the model's {len(model.eyes)} cameras"
    found = eyes_anywhere(soup)
    return found, f"{len(found)} views from anywhere"


def boxes_of(model):
    """The box around each part: what is to be hidden."""
    ends = [transforms.bounds([p for surface in part.surfaces for p in surface.points]) for part in model.parts]
    return numpy.array([(*low, *high) for low, high in ends], float)


def made(path, wanted):
    """The bytes of the occluders of a model, and lines on what was done."""
    model = Model(path)
    soup, moving = soup_of(model, Choice(wanted.occluders, wanted.clear))
    found, which = views_for(model, wanted, soup)
    if not found:
        raise ModelError("There is no view.")
    samples = min(MOST_SAMPLES, max(2000, SAMPLES // len(found)))
    sights = [sight_of(view, ASPECT, samples, soup.size() / NEAR_PART) for view in found]
    drawn = [nearest(sight, soup.corners(), soup.is_double) for sight in told("seen from")(sights)]
    seen = numpy.unique(numpy.concatenate([owner for _, owner in drawn]))
    # of eyes anywhere some may be in a part, or below a surface: nobody's eyes have to be there
    eyes = numpy.zeros((0, 3)) if which.endswith("anywhere") else numpy.array([sight.eye for sight in sights])
    pool = pool_of(soup, seen[seen >= 0], wanted.most, eyes)
    worth = choice.Worth(sights, [depth for depth, _ in drawn], boxes_of(model))
    gains = choice.Gains(pool, sights, worth, told("pieces seen from"))
    pieces = choice.with_whole_sheets(pool, choice.chosen_pieces(gains, wanted.most), wanted.most)
    corners, is_double = pool.triangles_of(pieces)
    if not len(corners):
        raise ModelError("The model has nothing that hides anything from there.")
    closed = [float(numpy.concatenate([depth > 0 for depth, _ in drawn]).mean()),
              choice.share_closed(sights, corners, is_double)]
    lines = [f"{moving} parts that move are left out"] if moving else []
    lines += [f"chosen for {which}", *where_it_holds(pool, pieces)]
    lines += [f"triangles: {len(soup.triangles)} in, {len(corners)} out; of the views' pixels {100 * closed[0]:.1f} %"
              f" closed by the model, {100 * closed[1]:.1f} % by these"]
    return glb_of(corners, is_double, "occluders"), lines


def where_it_holds(pool, pieces):
    """Lines on which kinds were taken, and for which eyes they hide only what is hidden."""
    cost, groups = pool.cost[pieces], pool.group[pieces]
    sheets, solids = (numpy.isin(groups, sorted(kind)) for kind in (pool.sheets, pool.solids))
    if pool.open_parts:
        yield (f"{pool.open_parts} parts have an edge that isn't shared by two triangles as it should, so they make no"
               " box")
    if pool.parts_with_eyes:
        yield f"{pool.parts_with_eyes} closed parts have an eye in them, so they make no box"
    if pool.torn:
        yield f"{pool.torn} surfaces have holes or notches in their outline, so they get no net"
    if pool.with_eyes_below:
        yield f"{pool.with_eyes_below} surfaces have an eye below them or beyond their border, so they get no net"
    if (~sheets & ~solids).any():
        yield f"patches: {cost[~sheets & ~solids].sum()} triangles, for every eye"
    if solids.any():
        yield (f"boxes in closed parts: {cost[solids].sum()} triangles, for eyes outside of these parts, and farther"
               " from them than the near distance")
    if sheets.any():
        yield (f"nets below surfaces: {cost[sheets].sum()} triangles, for eyes above the surface, within its border,"
               " and farther from it than the near distance")


def pool_of(soup, seen, most, eyes):
    """The pieces of what is seen."""
    pool = Pool()
    surfaces, pool.torn = surfaces_of(soup)
    labels = coplanar_sets(soup)
    counts = numpy.bincount(labels[labels >= 0])
    for surface in surfaces:
        # what is left of a surface for patches is flat parts of it
        lone = surface.members[labels[surface.members] >= 0]
        labels[lone[counts[labels[lone]] <= 2]] = -1
    for number, patch in enumerate(patches_of(soup, labels, seen, told("planes"))):
        for ring in pieces_of(patch.polygon):
            pool.add(patch.plane.solid(ring), patch.is_double, number)
    fitting = [surface for surface in surfaces if is_below_all(surface, eyes)]
    pool.with_eyes_below = len(surfaces) - len(fitting)
    add_nets(pool, fitting, most)
    add_boxes(pool, Solids(soup, eyes), numpy.unique(soup.part[seen]), labels)
    pool.close().meet_points(soup.points, 3 * soup.rounding)
    return pool


def add_nets(pool, surfaces, most):
    """A net below each surface, with as much of the triangles as the surface has of their area."""
    whole = sum(surface.outline.area for surface in surfaces)
    for surface in surfaces:
        number = pool.next_group()
        for triangle in net_under(surface, NET_SHARE * most * surface.outline.area / whole):
            pool.add(triangle, False, number)
            pool.sheets.add(number)


def add_boxes(pool, solids, parts, labels):
    """The faces of boxes in parts that are more than their flat sides."""
    for part in told("parts")(parts.tolist()):
        if solids.is_round(part, labels):
            number = pool.next_group()
            for face in solids.faces_of(part):
                pool.add(face, False, number)
                pool.solids.add(number)
    pool.open_parts, pool.parts_with_eyes = solids.open_parts, solids.parts_with_eyes
