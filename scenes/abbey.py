#!/usr/bin/env python3
"""An abbey as a model: slanted roofs, arches, a round tower and a tree, with things to be hidden among them.

usage: scenes/abbey.py OUT.glb

A nave with a gabled roof and buttresses; before it a court with an arcade on each side, each a wall with round arches
under a slanted roof; a tower of 24 sides with a pointed roof; a tree with a round crown and leaves on cards about it.
Barrels and crates stand in and around. Eight cameras walk through the court and around it. The same abbey comes each
time. `tools/glb2scene` makes a scene of it."""
import argparse
import math
import pathlib
import random

from town import LEAVES, OPAQUE, Builder, Shape, block, joined

THINGS, STEPS, ARCH, COURT = 260, 12, 1.6, 24.0


def arcade(count):
    """A wall along x with arches, each 4 metres wide, 0.6 thick and 5 high, its fronts at z = 0 and at z = -0.6."""
    shape = Shape()
    for number in range(count):
        middle = 4 * number + 2
        turns = [math.pi * k / STEPS for k in range(STEPS + 1)]
        arch = [(middle - ARCH * math.cos(turn), 2 + ARCH * math.sin(turn)) for turn in turns]
        low = [(middle - ARCH, 0.0), *arch, (middle + ARCH, 0.0)]
        for (a, b), (c, d) in zip(low, low[1:]):
            shape.face((a, b, 0), (a, b, -0.6), (c, d, -0.6), (c, d, 0))
        for (a, b), (c, d) in zip(arch, arch[1:]):
            shape.face((a, b, 0), (c, d, 0), (c, 5, 0), (a, 5, 0))
            shape.face((a, 5, -0.6), (c, 5, -0.6), (c, d, -0.6), (a, b, -0.6))
        for a, c in ((4 * number, middle - ARCH), (middle + ARCH, 4 * number + 4)):
            shape.face((a, 0, 0), (c, 0, 0), (c, 5, 0), (a, 5, 0))
            shape.face((a, 5, -0.6), (c, 5, -0.6), (c, 0, -0.6), (a, 0, -0.6))
    wide = 4 * count
    shape.face((0, 5, 0), (wide, 5, 0), (wide, 5, -0.6), (0, 5, -0.6))
    shape.face((0, 0, -0.6), (0, 0, 0), (0, 5, 0), (0, 5, -0.6))
    shape.face((wide, 0, 0), (wide, 0, -0.6), (wide, 5, -0.6), (wide, 5, 0))
    return shape


def slanted(wide, deep, low, high):
    """A roof that rises from the front at z = 0 to z = -deep, drawn from both of its sides by two faces."""
    shape = Shape()
    a, b, c, d = (-0.3, low, 0.4), (wide + 0.3, low, 0.4), (wide + 0.3, high, -deep), (-0.3, high, -deep)
    shape.face(a, b, c, d)
    shape.face(d, c, b, a)
    return shape


def gabled(wide, deep, wall, ridge):
    """A house without windows under a gabled roof along x, closed."""
    shape, half = Shape(), deep / 2
    shape.face((0, 0, 0), (wide, 0, 0), (wide, wall, 0), (0, wall, 0))
    shape.face((wide, 0, -deep), (0, 0, -deep), (0, wall, -deep), (wide, wall, -deep))
    shape.face((0, wall, 0), (wide, wall, 0), (wide, ridge, -half), (0, ridge, -half))
    shape.face((wide, wall, -deep), (0, wall, -deep), (0, ridge, -half), (wide, ridge, -half))
    shape.face((0, 0, -deep), (wide, 0, -deep), (wide, 0, 0), (0, 0, 0))
    for x, turned in ((0, False), (wide, True)):
        corners = [(x, 0, -deep), (x, 0, 0), (x, wall, 0), (x, wall, -deep)]
        gable = [(x, wall, -deep), (x, wall, 0), (x, ridge, -half), (x, ridge, -half)]
        shape.face(*(corners[::-1] if turned else corners))
        shape.face(*(gable[::-1] if turned else gable))
    return shape


def turned_about(profile, sides, wave=0.0):
    """The closed shape of radii and heights from the bottom to the top, turned about y."""
    shape = Shape()

    def at(ring, side):
        angle, (radius, high) = 2 * math.pi * side / sides, profile[ring]
        radius *= 1 + wave * math.sin(3 * angle + 2 * ring)
        return radius * math.cos(angle), high, -radius * math.sin(angle)

    for ring in range(len(profile) - 1):
        for side in range(sides):
            after = (side + 1) % sides
            shape.face(at(ring, side), at(ring, after), at(ring + 1, after), at(ring + 1, side))
    return shape


def tree(builder):
    """A trunk, a crown of uneven shape, and leaves that are cut out of cards."""
    rings = 10
    crown = [(2.4 * math.sin(math.pi * k / rings), 4.5 - 2.2 * math.cos(math.pi * k / rings)) for k in range(rings + 1)]
    cards = Shape()
    for turn in range(4):
        x, z = 3 * math.cos(turn * math.pi / 4), 3 * math.sin(turn * math.pi / 4)
        cards.face((-x, 1.5, -z), (x, 1.5, z), (x, 7.5, z), (-x, 7.5, -z))
    trunk = turned_about([(0.0, 0.0), (0.35, 0.0), (0.25, 3.0), (0.0, 3.0)], 10)
    return builder.mesh("tree", (trunk, OPAQUE), (turned_about(crown, 20, 0.12), OPAQUE), (cards, LEAVES))


def buildings(builder):
    """The nodes of what stands: nave, arcades with their roofs, tower, trees, ground."""
    wall, roof = builder.mesh("arcade", (arcade(6), OPAQUE)), builder.mesh("slanted", (slanted(24, 4, 5, 7), OPAQUE))
    roots = []
    for number, (x, z, turn) in enumerate(((0, 0, 0.0), (COURT, 0, 0.5), (COURT, COURT, 1.0), (0, COURT, 1.5))):
        # the fronts look into the court, which lies at x and z from 0 to its width
        half = -turn * math.pi / 2
        place = {"translation": [x, 0, z], "rotation": [0, math.sin(half), 0, math.cos(half)]}
        children = [builder.node(f"arcade {number}", mesh=wall), builder.node(f"roof {number}", mesh=roof)]
        roots.append(builder.node(f"side {number}", children=children, **place))
    nave = builder.mesh("nave", (gabled(36, 12, 9, 15), OPAQUE))
    roots.append(builder.node("nave", mesh=nave, translation=[-4, 0, -8]))
    props = joined(*(((6 * k, 0, 0), (6 * k + 0.8, 7, 1.6)) for k in range(6)))
    roots.append(builder.node("buttresses", mesh=builder.mesh("buttresses", (props, OPAQUE)), translation=[-2, 0, -8]))
    tower = turned_about([(0, 0), (4, 0), (4, 18), (4.8, 18.5), (0, 27)], 24)
    roots.append(builder.node("tower", mesh=builder.mesh("tower", (tower, OPAQUE)), translation=[34, 0, 30]))
    shape = tree(builder)
    for number, (x, z) in enumerate(((12, 12), (-14, 6), (-12, 30), (12, 44), (44, 8))):
        roots.append(builder.node(f"tree {number}", mesh=shape, translation=[x, 0, z], scale=[1, 1 + 0.1 * number, 1]))
    ground = Shape()
    ground.face((-60, 0, 80), (90, 0, 80), (90, 0, -60), (-60, 0, -60))
    roots.append(builder.node("ground", mesh=builder.mesh("ground", (ground, OPAQUE))))
    return roots


def abbey():
    """The bytes of the model."""
    builder, dice = Builder(), random.Random(7)
    roots = buildings(builder)
    barrel = builder.mesh("barrel", (turned_about([(0, 0), (0.35, 0), (0.45, 0.5), (0.35, 1), (0, 1)], 12), OPAQUE))
    crate = builder.mesh("crate", (block((0, 0, 0), (0.9, 0.7, 0.6)), OPAQUE))
    for number in range(THINGS):
        x, z = dice.uniform(-30, 60), dice.uniform(-40, 60)
        name, mesh = (("barrel", barrel), ("crate", crate))[number % 2]
        half = dice.uniform(0, math.pi)
        roots.append(builder.node(f"{name} {number}", mesh=mesh, translation=[x, 0, z],
                                  rotation=[0, math.sin(half), 0, math.cos(half)]))
    for number in range(8):
        turn, away = 2 * math.pi * number / 8, (8, 34)[number % 2]
        eye = (12 + away * math.cos(turn), 1.7 + number // 3, 12 + away * math.sin(turn))
        at = (12, 2.0, 12) if away > 20 else (12 - 20 * math.cos(turn), 2.0, 12 - 20 * math.sin(turn))
        roots.append(builder.camera(f"look {number}", eye, at))
    return builder.glb(roots)


def main():
    parser = argparse.ArgumentParser(description=__doc__, formatter_class=argparse.RawDescriptionHelpFormatter)
    parser.add_argument("out", metavar="OUT.glb")
    words = parser.parse_args()
    pathlib.Path(words.out).write_bytes(abbey())


if __name__ == "__main__":
    main()
