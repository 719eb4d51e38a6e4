#!/usr/bin/env python3
"""Three far walls, in batches with windings of their own, in a wide scene.

usage: scenes/walls_in_batches.py > scenes/walls_in_batches.msoc
       scenes/walls_in_batches.py --telling    the verdicts that are explained here: frame, object, verdict

The screen has 64 by 64 pixels. Nearness at a distance w is 16 * 16777215 / w: rounded down for what is drawn, up for
what is tested. Below, "at 0.5" is a place across the screen: x / w, from -1 to 1. The walls stand at w = 4000, where
they have nearness 67108, and reach from -0.5 to 0.5 in height. In a narrow scene, with 65535 for 16777215, they would
have 262, and what is tested at up to w = 4002 would have 263."""
from msoc import DROPS_CLOCKWISE, KEEPS_BOTH, ONE, WIDE, Triangles, box, main, scene

objects, telling = [], []
drawn = Triangles([])
batches = []


def wall(left, right, clockwise, winding):
    """A wall of two triangles, as a batch."""
    corners = [(left, 2000, 4000), (right, 2000, 4000), (right, -2000, 4000), (left, -2000, 4000)]
    drawn.quad(*(corners if clockwise else reversed(corners)))
    batches.append((2, winding))


def add(thing, verdict):
    """An object, and what its verdict must be."""
    telling.append((0, len(objects), verdict))
    objects.append(thing)


# From -0.75 to -0.25, and kept: its triangles run counterclockwise. From -0.125 to 0.125, and kept: none are dropped.
# From 0.25 to 0.75, and dropped.
wall(-3000, -1000, False, DROPS_CLOCKWISE)
wall(-500, 500, True, KEEPS_BOTH)
wall(1000, 3000, True, DROPS_CLOCKWISE)

# 0: just behind the left wall, from -0.62 to -0.37 and within 0.25 in height, at nearness 67093. 1: just behind the
# middle one, from -0.07 to 0.07. In a narrow scene both would have 263 before a wall of 262, and be visible.
add(box((-2500, -1000, 4001), (-1500, 1000, 4001)), "occluded")
add(box((-300, -1000, 4001), (300, 1000, 4001)), "occluded")
# 2: on the middle wall itself: 67109, so it isn't behind the wall.
add(box((-300, -1000, 4000), (300, 1000, 4000)), "visible")
# 3: far behind the right wall, which isn't drawn, from 0.375 to 0.625.
add(box((3000, -2000, 8000), (5000, 2000, 8000)), "visible")

if __name__ == "__main__":
    camera = (ONE, 0, 0, 0, 0, ONE, 0, 0, 0, 0, ONE, 0)
    layout = scene((64, 64), 16, drawn.vertices, drawn.rows, objects, [camera], grade=WIDE, batches=batches)
    main(layout, telling)
