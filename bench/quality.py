#!/usr/bin/env python3
"""How much of what is truly hidden a built maskcull finds, and what that depends on.

usage: bench/quality.py PROGRAM                      the tables of docs/OCCLUDERS.md, from two models that it makes
       bench/quality.py PROGRAM --only order,passes  some of them: which, number, order, passes, sides, objects,
                                                     groups, near, size, when, made
       bench/quality.py PROGRAM --scene FILE..       scenes of yours, a row each
       bench/quality.py PROGRAM --json FILE          the tables in a file too, each as soon as it is made

An object is truly hidden in a frame if each of its samples lies behind all that the model draws, by a z-buffer in plain
Python (`tools/culling/depths.py`) with one depth for each sample. "Found" is the share of these that the program calls
occluded. "Holes" counts what it calls occluded and isn't hidden: none, as long as the occluders are part of what is
drawn. Pieces are the average of a frame. Nothing here is a time, so the machine doesn't matter. All tables take some
minutes. `made` runs tools/occluders, which wants numpy, scipy and shapely."""
import argparse
import concurrent.futures
import dataclasses
import functools
import json
import math
import multiprocessing
import pathlib
import random
import re
import subprocess
import sys
import tempfile

TOP = pathlib.Path(__file__).resolve().parent.parent
sys.path[:0] = [str(TOP / "tools"), str(TOP / "scenes")]
from culling import transforms  # noqa: E402
from culling.convert import Asked, convert  # noqa: E402
from culling.depths import buffer_of  # noqa: E402
from culling.gltf import Material, Model, Part, Surface  # noqa: E402
from culling.scene import read_report, read_scene  # noqa: E402
from culling.truth import hidden_objects  # noqa: E402
from frames import Numbers  # noqa: E402
from hills import height as hills_at  # noqa: E402
from models import furnished_hall  # noqa: E402
from town import block  # noqa: E402

BUILDING = "walls|roof|ground"
# The town's frames, by where the eye is.
WALK = (("in a street", 0, 7), ("across streets", 7, 10), ("in a house", 10, 13), ("over the roofs", 13, 16))


@dataclasses.dataclass
class Outcome:
    """Sums over the frames of a scene."""

    occluders: int
    pieces: int
    in_view: int
    hidden: int
    found: int
    holes: int

    def shares(self):
        of_hidden, of_view = percent(self.found, self.hidden), percent(self.found, self.in_view)
        return [f"{self.hidden:,}", f"{self.found:,}", of_hidden, of_view]

    def row(self, name):
        return [name, f"{self.occluders:,}", f"{self.pieces:,}", f"{percent(self.found, self.hidden)}", str(self.holes)]


def percent(part, whole):
    return f"{100 * part / whole:.1f} %" if whole else "none hidden"


def truths(scene):
    """For each frame, for each object, whether it is truly hidden by what the scene draws."""
    with concurrent.futures.ProcessPoolExecutor(mp_context=multiprocessing.get_context("fork")) as pool:
        return list(pool.map(functools.partial(truth_of, scene), range(len(scene.cameras))))


def truth_of(scene, frame):
    return hidden_objects(scene, frame, buffer_of(scene, frame)[0])


def reports(program, scene, stored=None):
    """What a program tells of each frame of a scene, whose bytes may be given."""
    run = subprocess.run([program, "cull"], input=stored or scene.as_bytes(), stdout=subprocess.PIPE, check=True)
    return read_report(run.stdout.decode(), scene)


def outcome(scene, told, truth):
    """The sums of what was told, against what is so. The objects of both are the same."""
    pairs = [
        (verdict, is_hidden)
        for frame, row in zip(told, truth) for verdict, is_hidden in zip(frame.verdicts, row)
    ]
    return Outcome(
        len(scene.occluders),
        round(sum(frame.pieces for frame in told) / len(told)),
        sum(verdict != "outside" for verdict, _ in pairs),
        sum(is_hidden for _, is_hidden in pairs),
        sum(is_hidden and verdict == "occluded" for verdict, is_hidden in pairs),
        sum(not is_hidden and verdict == "occluded" for verdict, is_hidden in pairs),
    )


class Subject:
    """A model, and what is truly hidden in it."""

    def __init__(self, name, path, program):
        self.name, self.model, self.program = name, Model(path), program

    @functools.cached_property
    def truth(self):
        """For each frame, for each object, whether it is truly hidden where all that is opaque is drawn."""
        whole = convert(self.model, Asked()).scene
        truth = truths(whole)
        sums = outcome(whole, reports(self.program, whole), truth)
        print(f"\n{self.name}: {len(truth)} frames, {len(whole.objects)} objects")
        print(f"over all frames {sums.in_view:,} are in view, {sums.hidden:,} of them truly hidden", flush=True)
        return truth

    def judged(self, model=None, **asked):
        """The outcome of a conversion, against what is hidden when all is drawn."""
        scene = convert(model or self.model, Asked(**asked)).scene
        return outcome(scene, reports(self.program, scene), self.truth)


# The tables so far, by their names.
TOLD = {}


def table(name, title, head, rows):
    """Prints a table, and keeps it."""
    TOLD[name] = {"head": list(head), "rows": rows}
    print(f"\n{title}\n")
    print("| " + " | ".join(head) + " |")
    print("|---" * len(head) + "|")
    for row in rows:
        print("| " + " | ".join(row) + " |", flush=True)


USUAL = ("occluders", "occluder triangles", "pieces a frame", "found", "holes")
SHARES = ("in view", "truly hidden", "found", "found, of what is truly hidden", "found, of what is in view")


def with_boxes(model):
    """The model with a part more for each house: the box around its walls, as something that hides."""
    boxes = [boxed(part) for part in model.parts if part.name.startswith("walls")]
    return changed(model, model.parts + boxes)


def changed(model, parts):
    """A model with other parts."""
    other = object.__new__(Model)
    other.__dict__.update(model.__dict__, parts=parts)
    return other


def boxed(part):
    """The box around a part."""
    shape = block(*transforms.bounds([point for surface in part.surfaces for point in surface.points]))
    corners = iter(shape.indices)
    surface = Surface(shape.points, list(zip(corners, corners, corners)), Material())
    return Part(f"box of {part.name}", "box", [surface], False)


def which(models):
    """Which triangles hide."""
    rows = [models.town.judged().row("all that is opaque")]
    rows.append(models.town.judged(occluders=BUILDING).row("walls, roofs and the ground"))
    rows.append(models.town.judged(occluders="walls").row("walls alone"))
    rows.append(models.town.judged(occluders="roof|ground").row("roofs, floors and the ground alone"))
    rows.append(models.town.judged(clear=BUILDING).row("furniture, cars and trunks alone"))
    table("which", "Which triangles, in the town:", USUAL, rows)
    # the boxes stand behind the other objects in the scene, so that the truth's objects are the first ones
    model = with_boxes(models.town.model)
    scene = convert(model, Asked(occluders="^box of|roof|ground")).scene
    told = reports(models.town.program, scene)
    for frame in told:
        del frame.verdicts[len(models.town.truth[0]) :]
    row = outcome(scene, told, models.town.truth).row("a box around each house's walls, roofs and the ground")
    table("around", "Around the surface in place of inside it, in the town:", USUAL, [rows[1], row])


def number(models):
    """How many, the largest first."""
    for subject in (models.town, models.hills):
        rows = [subject.judged(keep=keep).row(f"the {keep:,} largest") for keep in (500, 2000, 8000, 20000)]
        rows.append(subject.judged().row("all"))
        table(f"number {subject.name}", f"How many, in the {subject.name}:", USUAL, rows)


def order(models):
    """In which order."""
    for subject in (models.town, models.hills):
        rows = [subject.judged(order=name).row(f"`--order {name}`") for name in ("near", "cells", "file", "area")]
        table(f"order {subject.name}", f"In which order, in the {subject.name}:", USUAL, rows)


def passes(models):
    """More than once: lists that fit so often."""
    for subject, most, kept in ((models.town, 3, {"keep": 20000}), (models.coarse, 2, {})):
        for way in ("file", "near"):
            asked = {"order": way, **kept}
            rows = [subject.judged(passes=count, **asked).row(f"`--passes {count}`") for count in range(1, most + 1)]
            title = f"The list more than once, by `--order {way}`, in the {subject.name}:"
            table(f"passes {way} {subject.name}", title, USUAL, rows)


def sides(models):
    """Closed shapes from one side."""
    rows = [models.town.judged(occluders=BUILDING, sides=way).row(f"`--sides {way}`") for way in ("material", "both")]
    table("sides", "One side or both, walls, roofs and the ground of the town:", USUAL, rows)


def of_house(name):
    """The house that a piece of furniture stands in, or None."""
    found = re.fullmatch(r".* in room \d of house (\d+)", name)
    return found and int(found[1])


def grouped(model):
    """The model's furniture as one part for each house."""
    houses = {}
    for part in model.parts:
        if (house := of_house(part.name)) is not None:
            houses.setdefault(house, []).extend(part.surfaces)
    return [Part(f"house {house}", "", surfaces, False) for house, surfaces in sorted(houses.items())]


def tested(subject, parts, kind):
    """The reports and the truth of some parts alone, as objects of a kind, behind walls, roofs and the ground."""
    building = [part for part in subject.model.parts if re.search(BUILDING, part.name)]
    # what hides are objects too here, behind the others; they aren't counted
    model = changed(subject.model, parts + building)
    scene = convert(model, Asked(occluders=BUILDING, objects=kind)).scene
    told, truth = reports(subject.program, scene), truths(scene)
    for frame, row in zip(told, truth):
        del frame.verdicts[len(parts) :], row[len(parts) :]
    return scene, told, truth


def objects(models):
    """Boxes and meshes, over the same triangles that hide."""
    furniture = [part for part in models.town.model.parts if of_house(part.name) is not None]
    others = [part for part in models.town.model.parts if of_house(part.name) is None and part.name != "ground"]
    rows = []
    for name, parts in (("furniture", furniture), ("walls, panes, roofs, cars and trees", others)):
        for kind, word in (("box", "boxes"), ("mesh", "meshes")):
            sums = outcome(*tested(models.town, parts, kind))
            rows.append([f"{name} as {word}", f"{sums.in_view:,}", *sums.shares()])
    table("objects", "Boxes and meshes, in the town:", ("tested", *SHARES), rows)


def groups(models):
    """The furniture of a house as a group: what its box settles, and how many tests it spares."""
    furniture = [part for part in models.town.model.parts if of_house(part.name) is not None]
    houses = [of_house(part.name) for part in furniture]
    parts = grouped(models.town.model)
    numbers = {int(part.name.split()[1]): place for place, part in enumerate(parts)}
    _, one_by_one, _ = tested(models.town, furniture, "box")
    _, by_house, _ = tested(models.town, parts, "box")
    found = settled = tests = 0
    for members, boxes in zip(one_by_one, by_house):
        tests += len(parts)
        for house, verdict in zip(houses, members.verdicts):
            group = boxes.verdicts[numbers[house]]
            found += verdict == "occluded"
            settled += verdict == "occluded" and group == "occluded"
            tests += group == "visible"
    rows = [["each by itself", f"{len(furniture) * len(one_by_one):,}", f"{found:,}"],
            ["a box for each house first", f"{tests:,}", f"{found:,}, of them {settled:,} by their house's box"]]
    table("groups", "The furniture of a house as a group, in the town:", ("tested", "tests", "occluded"), rows)


def near(models):
    """The near distance, in either grade."""
    rows = []
    for metres in (0.1, 0.3, 1, 3):
        row = [f"{metres} m"]
        for wide in (False, True):
            scene = convert(models.town.model, Asked(occluders=BUILDING, near=metres, wide=wide)).scene
            # one step of nearness at 50 metres, in millimetres
            row += [f"{1000 * 50**2 / (scene.top * metres):.3g} mm", f"{called(reports(models.town.program, scene)):,}"]
        rows.append(row)
    head = ("near distance", "a step at 50 m, narrow", "called occluded", "a step, wide", "called occluded")
    table("near", "The near distance, in the town (walls, roofs and the ground):", head, rows)


def called(told):
    """How many objects are called occluded, over all frames."""
    return sum(frame.counts()["occluded"] for frame in told)


def size(models):
    """The screen's size. The cameras are the same for each."""
    for subject, asked in ((models.town, {"occluders": BUILDING}), (models.hills, {"order": "near"})):
        first, rows = None, []
        scene = convert(subject.model, Asked(size=(1280, 720), **asked)).scene
        for screen in ((1280, 720), (640, 360), (320, 180)):
            told = reports(subject.program, dataclasses.replace(scene, size=screen))
            verdicts = [verdict for frame in told for verdict in frame.verdicts]
            first = first or verdicts
            both = sum(pair == ("occluded", "occluded") for pair in zip(first, verdicts))
            rows.append([f"{screen[0]} by {screen[1]}", f"{called(told):,}", f"{both:,}"])
        head = ("screen", "called occluded", "of these also at 1280 by 720")
        table(f"size {subject.name}", f"The screen's size, in the {subject.name}:", head, rows)


def when(models):
    """Frame by frame: where there is something to find."""
    scene = convert(models.town.model, Asked(occluders=BUILDING)).scene
    told, rows = reports(models.town.program, scene), []
    for name, first, end in WALK:
        sums = outcome(scene, told[first:end], models.town.truth[first:end])
        rows.append([f"{name} ({end - first} frames)", f"{sums.in_view:,}", *sums.shares()])
    table("when", "Where one stands, in the town:", ("the eye is", *SHARES), rows)


# Models for which tools/occluders makes occluders, each with what its scenes are fixed to.
FIXED = {"wide": True, "order": "file"}
MADE = (
    ("town", {**FIXED, "near": 0.3}),
    ("hills", {**FIXED, "near": 0.4}),
    ("hall", {**FIXED, "near": 0.05}),
    ("abbey", {**FIXED, "near": 0.2}),
)


class Made:
    """A model, what is truly hidden in it by fixed options, and what other triangles find of that."""

    def __init__(self, models, name, asked):
        self.models, self.name, self.asked = models, name, asked
        self.path, self.program = models.path(name), models.program
        self.model = Model(self.path)
        self.truth = truths(convert(self.model, Asked(**asked)).scene)

    def own(self, **more):
        """The outcome by the model's own triangles, all that are opaque or some."""
        return self.by(None, **more)

    def by(self, hiding, **more):
        scene = convert(self.model, Asked(hiding=hiding, **{**self.asked, **more})).scene
        sums = outcome(scene, reports(self.program, scene), self.truth)
        return [f"{len(scene.occluders):,}", f"{sums.pieces:,}", percent(sums.found, sums.hidden), str(sums.holes)]

    def occluders(self, count, *words):
        """The parts that the tool makes, and of the pixels that the model closes in its views, which share they do."""
        out = self.models.room / f"{self.name}.{count}.occluders.glb"
        words = [sys.executable, TOP / "tools" / "occluders", self.path, out, "--triangles", count, *words]
        run = subprocess.run(list(map(str, words)), stdout=subprocess.PIPE, check=True, text=True)
        whole, closed = map(float, re.findall(r"([\d.]+) %", run.stdout))
        return Model(out).parts, f"{100 * closed / whole:.1f} %"


def other_eyes(count):
    """A path in the hills: eyes at the height of a man, elsewhere than those of the cameras."""
    dice, lines = random.Random(5), []
    for _ in range(count):
        x, z, turn = dice.uniform(60, 340), dice.uniform(60, 340), dice.uniform(0, 2 * math.pi)
        eye = hills_at(x, z) + 1.7
        lines.append(f"{x} {eye} {z} {x + 40 * math.cos(turn)} {eye - 1} {z + 40 * math.sin(turn)}")
    return "\n".join(lines)


def made(models):
    """Occluders that tools/occluders makes of a model."""
    head = ("occluders", "triangles", "pieces a frame", "found", "holes", "of the model's pixels closed")
    for name, asked in MADE:
        subject = Made(models, name, asked)
        rows = [["all that is opaque", *subject.own(), "100 %"]]
        for count in (250, 500, 1000, 2000):
            parts, closed = subject.occluders(count)
            rows.append([f"made, at most {count:,}", *subject.by(parts), closed])
        if name == "town":
            rows[1:1] = [["walls, roofs and the ground", *subject.own(occluders=BUILDING), ""]]
            rows.append(["the same, `--passes 2`", *subject.by(parts, passes=2), closed])
            parts, closed = subject.occluders(2000, "--anywhere")
            rows.append(["made without cameras, at most 2,000", *subject.by(parts), closed])
        if name == "hills":
            parts, closed = subject.occluders(2500)
            rows.append(["made, at most 2,500", *subject.by(parts), closed])
            elsewhere = Made(models, name, {**asked, "path": other_eyes(16)})
            rows.append(["all, from 16 other eyes", *elsewhere.own(), ""])
            rows.append(["these 2,500, from 16 other eyes", *elsewhere.by(parts), ""])
        table(f"made {name}", f"Made by tools/occluders, {name}:", head, rows)


ALL = (which, number, order, passes, sides, objects, groups, near, size, when, made)
TABLES = {table.__name__: table for table in ALL}


class Models:
    """The models, each made when it is first asked for."""

    def __init__(self, room, program):
        self.room, self.program = pathlib.Path(room), program

    def made(self, name, script, *words):
        return Subject(name, self.by_script(name, script, *words), self.program)

    def by_script(self, name, script, *words):
        path = self.room / f"{name}.glb"
        subprocess.run([sys.executable, TOP / "scenes" / script, path, *words], check=True)
        return path

    def path(self, name):
        """A model of scenes/, or the furnished hall."""
        if name != "hall":
            return self.by_script(name, f"{name}.py")
        path = self.room / "hall.glb"
        path.write_bytes(furnished_hall(Numbers(1), 200))
        return path

    @functools.cached_property
    def town(self):
        return self.made("town", "town.py")

    @functools.cached_property
    def hills(self):
        return self.made("hills", "hills.py")

    @functools.cached_property
    def coarse(self):
        """Hills whose list fits twice."""
        return self.made("coarser hills", "hills.py", "--side", "115")


def own_scenes(program, paths):
    rows = []
    for path in paths:
        stored = pathlib.Path(path).read_bytes()
        scene = read_scene(stored)
        sums = outcome(scene, reports(program, scene, stored), truths(scene))
        rows.append([*sums.row(path), f"{sums.in_view:,}", f"{sums.hidden:,}"])
    table("scenes", "Scenes:", (*USUAL, "in view", "truly hidden"), rows)


def main():
    parser = argparse.ArgumentParser(description=__doc__, formatter_class=argparse.RawDescriptionHelpFormatter)
    parser.add_argument("program")
    parser.add_argument("--only", default=",".join(TABLES))
    parser.add_argument("--scene", nargs="+")
    parser.add_argument("--json", type=pathlib.Path)
    words = parser.parse_args()
    program = str(pathlib.Path(words.program).resolve())
    if words.scene:
        own_scenes(program, words.scene)
        return
    with tempfile.TemporaryDirectory() as room:
        models = Models(room, program)
        for name in words.only.split(","):
            TABLES[name](models)
            if words.json:
                words.json.write_text(json.dumps(TOLD))


if __name__ == "__main__":
    main()
