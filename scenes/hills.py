#!/usr/bin/env python3
"""Hills as a scan has them: one mesh of small triangles in no order, and huts to be hidden behind them.

usage: scenes/hills.py OUT.glb [--side 170]

The ground is a net of as many squares along each side, two triangles each, 400 metres wide; 500 huts stand on it, and
eight cameras at the height of a man. The same hills come from the same side. `tools/glb2scene` makes a scene of it."""
import argparse
import math
import pathlib
import random

from town import OPAQUE, Builder, Shape, block

WIDE, HUTS, VIEWS = 400.0, 500, 8
# Of each wave: its length in metres along x and z, its height in metres, and where it begins.
WAVES = ((90, 130, 9.0, 0.3), (60, -80, 6.0, 1.7), (-35, 50, 3.0, 4.1), (17, 23, 0.8, 2.2))


def height(x, z):
    return sum(rise * math.sin(2 * math.pi * (x / along + z / across) + phase) for along, across, rise, phase in WAVES)


def ground(side, dice):
    """The net, its triangles in no order. A point stands once for each triangle that has it."""
    step, shape = WIDE / side, Shape()
    at = lambda i, k: (i * step, height(i * step, k * step), k * step)  # noqa: E731
    squares = [(at(i, k), at(i, k + 1), at(i + 1, k + 1), at(i + 1, k)) for i in range(side) for k in range(side)]
    triangles = [corners for a, b, c, d in squares for corners in ((a, b, c), (a, c, d))]
    dice.shuffle(triangles)
    for corners in triangles:
        shape.indices += range(len(shape.points), len(shape.points) + 3)
        shape.points += corners
    return shape


def hills(side):
    """The bytes of the model."""
    builder, dice = Builder(), random.Random(side)
    roots = [builder.node("ground", mesh=builder.mesh("ground", (ground(side, dice), OPAQUE)))]
    hut = builder.mesh("hut", (block((-1.5, -0.5, -1.5), (1.5, 2.2, 1.5)), OPAQUE))
    for number in range(HUTS):
        x, z = dice.uniform(2, WIDE - 2), dice.uniform(2, WIDE - 2)
        roots.append(builder.node(f"hut {number}", mesh=hut, translation=[x, height(x, z), z]))
    for number in range(VIEWS):
        turn = 2 * math.pi * number / VIEWS
        x, z = WIDE / 2 + 60 * math.cos(turn), WIDE / 2 + 60 * math.sin(turn)
        ahead = (x - 40 * math.sin(turn), z + 40 * math.cos(turn))
        eye = (x, height(x, z) + 1.7, z)
        roots.append(builder.camera(f"look {number}", eye, (ahead[0], eye[1] - 1, ahead[1])))
    return builder.glb(roots)


def main():
    parser = argparse.ArgumentParser(description=__doc__, formatter_class=argparse.RawDescriptionHelpFormatter)
    parser.add_argument("out", metavar="OUT.glb")
    parser.add_argument("--side", type=int, default=170)
    words = parser.parse_args()
    pathlib.Path(words.out).write_bytes(hills(words.side))


if __name__ == "__main__":
    main()
