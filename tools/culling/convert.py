"""A model as a scene: what is asked for, and the scene with its names and notes."""
import dataclasses
import json
import math

from . import lenses, transforms, views
from .document import ModelError
from .objects import Objects, Vertices
from .occluders import Choice, largest, ordered
from .progress import watched
from .scene import FAR, MOST_FRAMES, MOST_OCCLUDERS, NARROW_TOP, WIDE_TOP, Scene, msoc

# The side of a cell, where none is asked for: this part of the model's diagonal.
CELL_PART = 16
# The scene's 0, 0, 0 lies so many units off the middle of the model and the eyes on each axis, so that an eye in the
# middle has no small numbers: a change of one in a camera's row then moves the row's sum there, which `views` needs.
MARGIN = 40503
MOST_METRES = 1e15
FINENESSES = (4, 2, 1)
# The least near distance that fits is found to this factor.
CLOSE = 1.001


@dataclasses.dataclass
class Asked:
    """What is asked of a conversion; `None` where the model decides."""

    size: tuple = None
    near: float = None
    height: float = None
    orbit: int = None
    path: str = None
    objects: str = "box"
    occluders: str = None
    clear: str = None
    sides: str = "material"
    order: str = "near"
    cell: float = None
    passes: int = 1
    keep: int = None
    wide: bool = True
    hiding: list = None


@dataclasses.dataclass
class Converted:
    """The scene, what stands in its file of names, and sentences on what was done."""

    scene: Scene
    names: dict
    notes: list

    def names_text(self):
        return json.dumps(self.names, indent=1) + "\n"


def convert(model, asked):
    """A model as a scene, in the way that is asked for."""
    points = [point for part in model.parts for surface in part.surfaces for point in surface.points]
    if not points:
        raise ModelError("The model has no mesh with a point in the scene that it shows.")
    box = transforms.bounds(points)
    test_reach("The model", box)
    eyes = lenses.own_eyes(model, asked)
    size, notes = lenses.screen(eyes, asked)
    aspect = size[0] / size[1]
    seen = chosen_views(eyes, asked, box, aspect)
    test_reach("A view", [view.eye for view in seen])
    diagonal = math.dist(*box)
    chosen, share = chosen_occluders(model, asked, [view.eye for view in seen], diagonal)
    near, may_rise, told = lenses.near_distance(eyes, asked, diagonal)
    frame, cameras = fitting_frame(near, box, seen, aspect, may_rise)
    notes += told if frame.near == near else [lenses.raised(near, frame.near)]
    vertices = Vertices()
    triangles, winding = drawn(chosen, frame, vertices, asked)
    objects = Objects(frame, vertices)
    objects.take(model.parts, asked.objects)
    top = WIDE_TOP if asked.wide else NARROW_TOP
    batches = [(len(triangles), winding)]
    things = [thing.numbers for thing in objects.things]
    scene = Scene(size, views.NEAR_UNITS, top, batches, vertices.rows, triangles, objects.triangles, things, cameras)
    notes = model.notes + notes + share + objects.notes
    return Converted(scene, names_of(model, frame, objects.things, seen), notes)


def test_reach(what, points):
    """Refuses places whose distances couldn't be told exactly enough any more."""
    if not all(abs(part) < MOST_METRES for point in points for part in point):
        raise ModelError(f"{what} reaches further than {MOST_METRES:.0e} metres from the middle.")


def chosen_views(eyes, asked, box, aspect):
    """The views that are asked for; else those of the model's cameras; else eight around it."""
    height = asked.height or math.radians(60)
    if asked.path is not None:
        seen = views.along(asked.path, height)
    elif eyes:
        seen = [views.of_model(eye, asked.height) for eye in eyes]
    else:
        seen = views.around(box, asked.orbit or 8, height, aspect)
    if not 0 < len(seen) <= MOST_FRAMES:
        raise ModelError(f"There are {len(seen)} views, and a scene has 1 to {MOST_FRAMES}.")
    return seen


def chosen_occluders(model, asked, eyes, diagonal):
    """The triangles that hide, in the order that is asked for, and a note on how much was kept."""
    found = Choice(asked.occluders, asked.clear).occluders(model.parts if asked.hiding is None else asked.hiding)
    chosen = largest(found, asked.keep or MOST_OCCLUDERS)
    # a triangle that hides by both sides may stand twice
    while (count := asked.passes * len(both_ways(chosen, asked.sides))) > MOST_OCCLUDERS:
        chosen = largest(chosen, min(len(chosen) - 1, len(chosen) * MOST_OCCLUDERS // count))
    area, whole = (sum(occluder.area for occluder in some) for some in (chosen, found))
    share = f"{100 * area / whole:.1f} %" if whole else "nothing"
    notes = [f"occluders: {len(chosen)} of {len(found)} triangles, with {share} of their area"]
    return ordered(chosen, asked.order, eyes, asked.cell or diagonal / CELL_PART or 1.0), notes


def both_ways(occluders, sides):
    """Triples of points for triangles whose front runs counterclockwise; of double-sided ones among others both."""
    if sides == "both" or all(occluder.is_double_sided for occluder in occluders):
        return [occluder.points for occluder in occluders]
    made = []
    for occluder in occluders:
        made.append(occluder.points)
        if occluder.is_double_sided:
            made.append(occluder.points[::-1])
    return made


def drawn(occluders, frame, vertices, asked):
    """The occluder triangles by their vertices, the list as often as there are passes, and their winding."""
    triples = both_ways(occluders, asked.sides)
    hides_twice = asked.sides == "both" or all(occluder.is_double_sided for occluder in occluders)
    triangles = []
    for points in watched(triples, "occluder triangles"):
        corners = tuple(map(vertices.number, frame.vertices(points)))
        if len(set(corners)) == 3:
            triangles.append(corners)
    return triangles * asked.passes, msoc.KEEPS_BOTH if hides_twice else msoc.DROPS_CLOCKWISE


def fitting_frame(near, box, seen, aspect, may_rise=False):
    """The finest units in which the model and the eyes fit a scene, and the cameras in these units. Where they don't
    fit, and the near distance may rise, it becomes the least greater one at which they do."""
    ends = transforms.bounds([*box, *(view.eye for view in seen)])
    fitting = finest_frame(near, ends, seen, aspect)
    if fitting:
        return fitting
    reach = max(b - a for a, b in zip(*ends))
    enough = next((near * 2**k for k in range(1, 60) if finest_frame(near * 2**k, ends, seen, aspect)), None)
    if enough and may_rise:
        return least_frame(enough / 2, enough, ends, seen, aspect)
    advice = f"take --near {enough:.3g}" if enough else "take a much larger --near"
    raise ModelError(
        f"The model and the eyes reach over {reach:.6g} metres, which is too far for a near distance of {near:.6g}"
        f" and this field of view: {advice}."
    )


def least_frame(low, high, ends, seen, aspect):
    """The frame of the least near distance between one that is too small and one that fits."""
    found = finest_frame(high, ends, seen, aspect)
    while high > CLOSE * low:
        middle = math.sqrt(low * high)
        if fitting := finest_frame(middle, ends, seen, aspect):
            found, high = fitting, middle
        else:
            low = middle
    return found


def finest_frame(near, ends, seen, aspect):
    """The finest units for some near distance, with the cameras, or None where none fit."""
    for fineness in FINENESSES:
        frame = views.Frame(near, fineness, ends[0])
        frame.origin = tuple((a + b) / 2 + MARGIN / frame.scale for a, b in zip(*ends))
        if all(abs(part) < FAR for corner in frame.vertices(ends) for part in corner):
            cameras = [frame.camera(view, aspect) for view in watched(seen, "cameras")]
            if all(abs(number) <= FAR for camera in cameras for number in camera):
                return frame, cameras
    return None


def names_of(model, frame, things, seen):
    """What the scene's numbers mean, for people and for report2html."""
    return {
        "model": model.document.path.name,
        "axes": "x to the right, y up, z towards the viewer, as in glTF",
        "units a metre": frame.scale,
        "origin in metres": frame.origin,
        "near distance in metres": frame.near,
        "near distance in units of a camera": views.NEAR_UNITS,
        "units of a vertex in one of a camera": frame.fineness,
        "frames": [view.name for view in seen],
        "objects": [{"name": thing.name, "kind": thing.kind} for thing in things],
    }
