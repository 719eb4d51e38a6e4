"""The bytes of a scene, as `maskcull cull` reads them.

A scene is a header and some tables, one after the other without gaps:

    vertices             12 bytes each   x, y, z
    occluder triangles   12 bytes each   the numbers of three vertices, from 0
    batches               5 bytes each   a count in four bytes, and a winding in one; only in version 2
    object triangles     12 bytes each   the same
    objects              25 bytes each   a kind in one byte, then six numbers
    cameras              48 bytes each   twelve numbers: a row of four for each of x, y and w; one camera a frame

The lowest byte of a number comes first, and a number below 0 is stored as its two's complement. The occluder
triangles are drawn; the objects are tested against what is drawn. A mesh has a range of the object triangles.

In version 1, with a header of 32 bytes, all occluder triangles have one winding, and the scene is narrow: nearness goes
to 65535. In version 2, with a header of 36 bytes, a batch has the winding of the next triangles, as many as it counts,
and nearness may go to 16777215: the scene is wide.

A camera takes the vertex (x, y, z) to three numbers, x, y and w. Each is (a x + b y + c z) / 65536, rounded down,
and then d is added, where a, b, c, d is its row. w is the distance along the view; x / w runs from -1 at the left
edge of the screen to 1 at the right edge, and y / w from -1 at the lower edge to 1 at the upper one.

docs/FORMAT.md has the table of offsets and the limits of each number.
"""
import struct
import sys

RECTANGLE, BOX, MESH = 0, 1, 2
KEEPS_BOTH, DROPS_CLOCKWISE, DROPS_COUNTERCLOCKWISE = 0, 1, 2
NARROW, WIDE = 0, 1
ONE = 65536


def rectangle(x0, y0, x1, y1, w):
    """Pixels from (x0, y0) to before (x1, y1), y downwards, at distance w. No camera moves it."""
    return (RECTANGLE, x0, y0, x1, y1, w, 0)


def box(low, high):
    """From the least corner to the greatest one, in the coordinates of vertices."""
    return (BOX, *low, *high)


def mesh(first, count):
    """So many object triangles, from the first on."""
    return (MESH, first, count, 0, 0, 0, 0)


def scene(size, near, vertices, occluders, objects, cameras, object_triangles=(), winding=KEEPS_BOTH, grade=None,
          batches=None):
    """The bytes of a scene: of version 2 where a grade or batches are given, each a count and a winding, otherwise of
    version 1."""
    counts = (len(vertices), len(occluders), len(object_triangles), len(objects))
    if grade is None and batches is None:
        batches = []
        header = struct.pack("<4s4H2BH4I", b"MSOC", 1, *size, near, winding, NARROW, len(cameras), *counts)
    else:
        batches = [(len(occluders), winding)] if batches is None else batches
        flags = (0, NARROW if grade is None else grade)
        header = struct.pack("<4s4H2BH5I", b"MSOC", 2, *size, near, *flags, len(cameras), *counts, len(batches))
    tables = [("<3i", vertices), ("<3I", occluders), ("<IB", batches), ("<3I", object_triangles), ("<B6i", objects),
              ("<12i", cameras)]
    return header + b"".join(struct.pack(form, *row) for form, table in tables for row in table)


def in_cells(boxes, side):
    """The boxes in another order, in which those that stand together follow one another, as `cull --group` wants them.
    The ground, along x and z, is cut into square cells of this side, and the boxes are taken cell by cell along a curve
    that stays in a square of cells of any size until it has been in all of them. A box is where its middle is."""

    def apart(number):
        return sum((number >> bit & 1) << 2 * bit for bit in range(26))

    def place(box):
        _, x0, _, z0, x1, _, z1 = box
        across, along = (((low + high) // 2 + (1 << 24)) // side for low, high in ((x0, x1), (z0, z1)))
        return apart(across) | apart(along) << 1

    return sorted(boxes, key=place)


class Triangles:
    """Triangles of flat sides, each with vertices of its own, in a table of vertices that all share."""

    def __init__(self, vertices):
        self.vertices = vertices
        self.rows = []

    def quad(self, a, b, c, d):
        """Two triangles, for four points that follow one another around it."""
        first = len(self.vertices)
        self.vertices += [a, b, c, d]
        self.rows += [(first, first + 1, first + 2), (first, first + 2, first + 3)]

    def solid(self, points, faces):
        """Some points, and triangles by the numbers of the points."""
        first = len(self.vertices)
        self.vertices += points
        self.rows += [tuple(first + number for number in face) for face in faces]


def main(layout, telling):
    """Writes the scene to standard output, or with `--telling` the verdicts that the script explains."""
    if sys.argv[1:] == ["--telling"]:
        for frame, number, verdict in telling:
            print(frame, number, verdict)
    else:
        sys.stdout.buffer.write(layout)
