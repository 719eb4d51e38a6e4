"""The first fault of bytes that aren't a scene, as maskcull finds it, with the field, its place and what stands there.

Each step is tested over the whole before the next: the header, the length, the tables in the order in which they stand.
docs/FORMAT.md, 'Notes', has the numbers of the faults."""
import dataclasses
import struct

from .scene import BATCH, CAMERA, FAR, MOST_FRAMES, MOST_OBJECT_TRIANGLES, MOST_OBJECTS, MOST_OCCLUDERS, MOST_VERTICES
from .scene import OBJECT, TRIANGLE, VERTEX, msoc

MOST_SIDE, MOST_NEAR, MOST_BATCHES = 2048, 1024, 4096
# Of each count: its offset, its form, its limits.
COUNTS = ((14, "<H", 1, MOST_FRAMES), (16, "<I", 0, MOST_VERTICES), (20, "<I", 0, MOST_OCCLUDERS),
          (24, "<I", 0, MOST_OBJECT_TRIANGLES), (28, "<I", 0, MOST_OBJECTS), (32, "<I", 0, MOST_BATCHES))


@dataclasses.dataclass
class Fault:
    """The numbers of a refusal, the first and the last byte of its field, and the numbers that stand there. Where bytes
    are missing or too many there is no field, and `begin` is the first byte that isn't there, or is too many."""

    numbers: tuple
    begin: int
    last: int = None
    found: tuple = ()

    def note(self):
        return " ".join(map(str, ("scene refused", *self.numbers)))


def first_fault(stored):
    """The first fault of some bytes, or None where they are a scene."""
    return header_fault(stored) or length_fault(stored) or tables_fault(stored)


def header_length(version):
    return 32 if version == 1 else 36


def header_fault(stored):
    if len(stored) < 32:
        return Fault((1, 32, len(stored)), len(stored))
    if stored[:4] != b"MSOC":
        return Fault((2,), 0, 3, tuple(stored[:4]))
    version, width, height, near, winding, grade = struct.unpack_from("<4H2B", stored, 4)
    if version not in (1, 2):
        return Fault((3, version), 4, 5, (version,))
    if len(stored) < header_length(version):
        return Fault((1, header_length(version), len(stored)), len(stored))
    if any(not step <= side <= MOST_SIDE or side % step for side, step in ((width, 8), (height, 4))):
        return Fault((4, width, height), 6, 9, (width, height))
    if not 1 <= near <= MOST_NEAR:
        return Fault((5, near), 10, 11, (near,))
    if winding > (2 if version == 1 else 0):
        return Fault((6, winding), 12, 12, (winding,))
    if grade > version - 1:
        return Fault((7 if version == 1 else 16, grade), 13, 13, (grade,))
    return count_fault(stored, version)


def count_fault(stored, version):
    for number, (offset, form, least, most) in enumerate(COUNTS[: 4 + version]):
        count, = struct.unpack_from(form, stored, offset)
        if not least <= count <= most:
            return Fault((8, number, count), offset, offset + struct.calcsize(form) - 1, (count,))
    return None


def tables_of(stored):
    """Of each table, in the order in which they stand: its form, its offset and how many rows it has."""
    version = stored[4]
    frames, vertices, occluders, triangles, objects = struct.unpack_from("<H4I", stored, 14)
    batches = struct.unpack_from("<I", stored, 32)[0] if version == 2 else 0
    offset, tables = header_length(version), []
    for form, count in ((VERTEX, vertices), (TRIANGLE, occluders), (BATCH, batches), (TRIANGLE, triangles),
                        (OBJECT, objects), (CAMERA, frames)):
        tables.append((form, offset, count))
        offset += count * struct.calcsize(form)
    return tables, offset


def length_fault(stored):
    _, needed = tables_of(stored)
    if len(stored) < needed:
        return Fault((1, needed, len(stored)), len(stored))
    return Fault((9,), needed) if len(stored) > needed else None


def tables_fault(stored):
    """The first row at fault, table by table. The header and the length are those of a scene."""
    tables, _ = tables_of(stored)
    slices = [(form, stored[at : at + count * struct.calcsize(form)]) for form, at, count in tables]
    rows = [list(struct.iter_unpack(form, held)) for form, held in slices]
    vertices, occluders, batches, triangles, objects, cameras = rows
    many = len(vertices)
    steps = (
        (0, lambda _, row: (10,) if is_far(row) else None, vertices),
        (1, lambda _, row: (11, 0) if max(row) >= many else None, occluders),
        (2, batch_test(len(occluders)), batches),
        (3, lambda _, row: (11, 1) if max(row) >= many else None, triangles),
        (4, lambda _, row: object_fault(row, len(triangles)), objects),
        (5, lambda _, row: (14,) if is_far(row) else None, cameras),
    )
    for table, test, entries in steps:
        form, at, _ = tables[table]
        size = struct.calcsize(form)
        for number, row in enumerate(entries):
            if wrong := test(number, row):
                return Fault((*wrong, number), at + number * size, at + (number + 1) * size - 1, row)
        if table == 2 and stored[4] == 2 and (total := sum(count for count, _ in batches)) < len(occluders):
            return Fault((17, len(batches)), at, at + len(batches) * size - 1, (total,))
    return None


def is_far(row):
    return max(row) > FAR or min(row) < -FAR


def batch_test(triangles):
    """A test of batches in their order: of a winding, and of the sum of the counts."""
    total = 0

    def test(_, row):
        nonlocal total
        total += row[0]
        return (17,) if row[1] > 2 or total > triangles else None

    return test


def object_fault(row, triangles):
    """12 for an unknown kind, 13 for numbers that the kind doesn't have."""
    kind, *numbers = row
    a, b, c, d, e, f = numbers
    if kind > msoc.MESH:
        return (12,)
    if kind == msoc.RECTANGLE:
        is_wrong = c < a or d < b or f
    elif kind == msoc.BOX:
        is_wrong = d < a or e < b or f < c
    else:
        is_wrong = a < 0 or b < 0 or a + b > triangles or any(numbers[2:])
    return (13,) if is_wrong or is_far(numbers) else None
