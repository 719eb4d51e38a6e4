"""The scenes that bench/all measures, by name: each is made when it is first asked for, and kept as a file."""
import functools
import pathlib
import struct
import sys

import frames
import groups
import logs
import models
import pictures

sys.path.insert(0, str(pathlib.Path(__file__).resolve().parent.parent / "scenes"))
import msoc  # noqa: E402

FRAMES_AT, CAMERA_BYTES = 14, 48
CAMERAS = 4
# The limits of docs/FORMAT.md.
MOST = {"size": (2048, 2048), "vertices": 262144, "triangles": 65536, "object triangles": 262144, "objects": 65536,
        "frames": 256}


def demo(triangles, size=(1280, 720), boxes=500):
    """The scene of `maskcull demo --triangles N`; where they are given, with another screen or number of boxes."""
    numbers = frames.Numbers(1)

    def centre():
        return numbers.below(16001) - 8000, numbers.below(4001) - 2000, 200 + numbers.below(16000)

    vertices, objects = [], []
    for _ in range(triangles):
        x, y, z = centre()
        vertices += [(x + numbers.below(801) - 400, y + numbers.below(801) - 400, z + numbers.below(201) - 100)
                     for _ in range(3)]
    for _ in range(boxes):
        x, y, z = centre()
        w, h, d = (20 + numbers.below(200) for _ in range(3))
        objects.append(msoc.box((x - w, y - h, z - d), (x + w, y + h, z + d)))
    rows = [(3 * k, 3 * k + 1, 3 * k + 2) for k in range(triangles)]
    cameras = [(36864, 0, 0, -500 * frame, 0, msoc.ONE, 0, 0, 0, 0, msoc.ONE, -100 * frame) for frame in range(CAMERAS)]
    return msoc.scene(size, frames.FIRST_NEAR, vertices, rows, objects, cameras)


def city(cells=None):
    """The city of bench/groups.py, with its boxes by chance or in the order of cells of this side."""
    size, walls, boxes, cameras = groups.city(frames.Numbers(1))
    boxes = boxes if cells is None else msoc.in_cells(boxes, cells)
    return msoc.scene(size, frames.FIRST_NEAR, walls.vertices, walls.rows, boxes, cameras)


def shelves():
    size, wall, boxes, cameras = groups.large_boxes(frames.Numbers(1))
    return msoc.scene(size, frames.FIRST_NEAR, wall.vertices, wall.rows, boxes, cameras)


def near(distance, grade):
    """20,000 random triangles in front of another near distance: the picture stays what it is."""
    return frames.scene(frames.Form(distance, grade), 1, 20000, 500)


def greatest():
    """A scene as large as the format allows. A quarter of its objects are meshes, which share all object triangles;
    each of these is a small one in the distance, so that a run takes seconds."""
    data = demo(MOST["triangles"], MOST["size"], MOST["objects"] * 3 // 4)
    own, meshes = 3 * MOST["triangles"], MOST["objects"] // 4
    spare, each = MOST["vertices"] - own, MOST["object triangles"] // meshes
    head = list(struct.unpack_from("<4s4H2BH4I", data))
    head[8:] = MOST["vertices"], MOST["triangles"], MOST["object triangles"], MOST["objects"]
    vertices, rows, boxes = 32 + 12 * own, 12 * MOST["triangles"], 25 * (MOST["objects"] - meshes)
    corners = [struct.pack("<3i", x, y, 16000) for x, y in ((0, 0), (9, 0), (0, 9))]
    return b"".join([
        struct.pack("<4s4H2BH4I", *head), data[32:vertices], b"".join(corners) + corners[0] * (spare - 3),
        data[vertices : vertices + rows], struct.pack("<3I", own, own + 1, own + 2) * MOST["object triangles"],
        data[vertices + rows : vertices + rows + boxes],
        *(struct.pack("<B6i", *msoc.mesh(each * k, each)) for k in range(meshes)),
        data[-CAMERAS * CAMERA_BYTES :]])


def size_of(word):
    return tuple(map(int, word.split("x")))


MAKERS = {
    "random": lambda count: frames.scene(frames.Form(), 1, int(count), 500 if int(count) else 1),
    "left": lambda count: frames.scene(frames.Form(uneven=True), 1, int(count), 500),
    "demo": lambda count: demo(int(count)),
    "screen": lambda word: demo(20000, size_of(word)),
    "boxes": lambda count: demo(20000, boxes=int(count)),
    "narrow": lambda distance: near(int(distance), "narrow"),
    "wide": lambda distance: near(int(distance), "wide"),
    "city": city,
    "cells": lambda: city(500),
    "shelves": shelves,
    "rooms": lambda: models.scene(models.rooms(frames.Numbers(1), 12), CAMERAS),
    "scan": lambda: models.scene(models.scan(frames.Numbers(1), 160), CAMERAS),
    "hall": lambda: models.scene(models.hall(frames.Numbers(1), 200), CAMERAS),
    "greatest": greatest,
    "picture": lambda word, count: pictures.scene(size_of(word), int(count)),
    "lines": lambda kind: logs.SCENES[kind](),
}


def turned(data, count, is_still=False):
    """A scene with its cameras in turn over so many frames, or with its first one for each of them."""
    own = int.from_bytes(data[FRAMES_AT : FRAMES_AT + 2], "little")
    body, cameras = data[: -own * CAMERA_BYTES], data[-own * CAMERA_BYTES :]
    turns = [0 if is_still else CAMERA_BYTES * (frame % own) for frame in range(count)]
    return (body[:FRAMES_AT] + count.to_bytes(2, "little") + body[FRAMES_AT + 2 :]
            + b"".join(cameras[first : first + CAMERA_BYTES] for first in turns))


class Scenes:
    """The scenes of a folder; none is made where it is `dry`."""

    def __init__(self, room, dry=False):
        self.room, self.dry = room, dry

    def path(self, name, count=None, is_still=False):
        """The file of a scene, with its own frames or with so many."""
        more = "" if count is None else f".{'still' if is_still else 'turns'}-{count}"
        path = self.room / f"{name}{more}.msoc"
        if not self.dry and not path.exists():
            data = self.made(name)
            self.write(path, data if count is None else turned(data, count, is_still))
        return path

    @functools.lru_cache(2)  # a scene is asked for twice in a row, with many frames and with few
    def made(self, name):
        kind, *words = name.split("-")
        return MAKERS[kind](*words)

    def write(self, path, data):
        """A file is there whole or not at all."""
        part = path.with_suffix(".part")
        part.write_bytes(data)
        part.rename(path)

