"""Scenes and reports, from bytes to tables of numbers. `scenes/msoc.py` says what a scene's bytes are."""
import dataclasses
import pathlib
import struct
import sys

sys.path.insert(0, str(pathlib.Path(__file__).resolve().parents[2] / "scenes"))
import msoc  # noqa: E402

VERTEX, TRIANGLE, OBJECT, CAMERA, BATCH = "<3i", "<3I", "<B6i", "<12i", "<IB"
NARROW_TOP, WIDE_TOP = 65535, 16777215
MOST_FRAMES, MOST_VERTICES, MOST_OCCLUDERS, MOST_OBJECT_TRIANGLES, MOST_OBJECTS = 256, 262144, 65536, 262144, 65536
FAR = 1 << 24
VERDICTS = ("visible", "occluded", "outside")


class SceneError(Exception):
    """A scene or a report that can't be read: a sentence that says why."""


@dataclasses.dataclass
class Scene:
    """What a scene has. Each batch has a number of occluder triangles, in order, and their winding."""

    size: tuple
    near: int
    top: int
    batches: list
    vertices: list
    occluders: list
    object_triangles: list
    objects: list
    cameras: list

    def clips(self, frame, vertices):
        """Vertices through the camera of a frame: x, y and w of each."""
        a, b, c, d, e, f, g, h, i, j, k, m = self.cameras[frame]
        return [
            ((a * x + b * y + c * z >> 16) + d, (e * x + f * y + g * z >> 16) + h, (i * x + j * y + k * z >> 16) + m)
            for x, y, z in vertices
        ]

    def as_bytes(self):
        """Of version 1 where the scene is narrow and its triangles are one batch, otherwise of version 2."""
        tables = (self.vertices, self.occluders, self.objects, self.cameras, self.object_triangles)
        if self.top == NARROW_TOP and len(self.batches) == 1:
            return msoc.scene(self.size, self.near, *tables, winding=self.batches[0][1])
        grade = msoc.WIDE if self.top == WIDE_TOP else msoc.NARROW
        return msoc.scene(self.size, self.near, *tables, grade=grade, batches=self.batches)


def read_scene(stored):
    """The scene of some bytes, of version 1 or 2."""
    if len(stored) < 32 or stored[:4] != b"MSOC":
        raise SceneError("The file isn't a scene: it doesn't begin with MSOC and a header of 32 bytes.")
    version, width, height, near, winding, grade = struct.unpack_from("<4H2B", stored, 4)
    frames, vertices, occluders, triangles, objects = struct.unpack_from("<H4I", stored, 14)
    if version not in (1, 2) or (version == 2 and len(stored) < 36):
        raise SceneError(f"The scene has version {version}; versions 1 and 2 are read.")
    batches = struct.unpack_from("<I", stored, 32)[0] if version == 2 else 0
    forms = (VERTEX, TRIANGLE, BATCH, TRIANGLE, OBJECT, CAMERA)
    counts = (vertices, occluders, batches, triangles, objects, frames)
    tables, offset = [], 36 if version == 2 else 32
    needed = offset + sum(count * struct.calcsize(form) for form, count in zip(forms, counts))
    if needed != len(stored):
        raise SceneError(f"The scene's header requires {needed} bytes, and the file has {len(stored)}.")
    for form, count in zip(forms, counts):
        end = offset + count * struct.calcsize(form)
        tables.append(list(struct.iter_unpack(form, stored[offset:end])))
        offset = end
    places, drawn, parts, meshes, things, cameras = tables
    top = WIDE_TOP if version == 2 and grade else NARROW_TOP
    parts = parts if version == 2 else [(occluders, winding)]
    scene = Scene((width, height), near, top, parts, places, drawn, meshes, things, cameras)
    test_numbers(scene)
    return scene


def test_numbers(scene):
    """Refuses what would lead out of a table, or to a division by 0."""
    count = len(scene.vertices)
    if any(max(triangle) >= count for table in (scene.occluders, scene.object_triangles) for triangle in table):
        raise SceneError(f"The scene has a triangle with a vertex that isn't among its {count}.")
    if not all(scene.size) or not scene.near or sum(part for part, _ in scene.batches) != len(scene.occluders):
        raise SceneError("The scene has a size or a near distance of 0, or batches that don't sum up.")
    for number, (kind, first, many, *_) in enumerate(scene.objects):
        if kind > msoc.MESH or (kind == msoc.MESH and not 0 <= first <= first + many <= len(scene.object_triangles)):
            raise SceneError(f"Object {number} of the scene is of no kind, or has triangles that aren't there.")


@dataclasses.dataclass
class FrameReport:
    """What a report tells of a frame: the number of pieces, and for each object its verdict."""

    pieces: int
    verdicts: list

    def counts(self):
        return {verdict: self.verdicts.count(verdict) for verdict in VERDICTS}


def read_report(text, scene):
    """The frames of a report, which must be one of the scene."""
    lines = iter(text.split("\n"))
    head = " ".join(map(str, ("msoc-report 1", *scene.size, len(scene.cameras), len(scene.objects))))
    if next(lines) != head:
        raise SceneError(f"The report isn't one of this scene, which would begin: {head}")
    try:
        return [read_frame(lines, frame, len(scene.objects)) for frame in range(len(scene.cameras))]
    except (StopIteration, RuntimeError, ValueError, IndexError):
        raise SceneError("The report is cut, or has a line that isn't a report's.") from None


def read_frame(lines, frame, count):
    """A frame's lines. ValueError, IndexError or StopIteration where they aren't such lines."""
    word, number, _, pieces = next(lines).split(" ")
    if (word, number) != ("frame", str(frame)):
        raise ValueError(word)
    verdicts = [next(lines).split(" ")[1] for _ in range(count)]
    if not set(verdicts) <= set(VERDICTS) or not next(lines).startswith(f"end {frame} "):
        raise ValueError(frame)
    return FrameReport(int(pieces), verdicts)


def read_files(scene_path, report_path=None):
    """The scene of a file, its bytes, and the frames of the report beside it where one is named."""
    try:
        stored = pathlib.Path(scene_path).read_bytes()
        text = pathlib.Path(report_path).read_text("ascii") if report_path else None
    except UnicodeDecodeError:
        raise SceneError(f"{report_path} isn't a report: it isn't plain text.") from None
    except OSError as error:
        raise SceneError(f"{error.filename} can't be read: {error.strerror}.") from None
    scene = read_scene(stored)
    return scene, stored, read_report(text, scene) if text is not None else None
