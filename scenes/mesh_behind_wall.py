#!/usr/bin/env python3
"""Meshes behind a wall and beside it, seen from two places.

usage: scenes/mesh_behind_wall.py > scenes/mesh_behind_wall.msoc
       scenes/mesh_behind_wall.py --telling    the verdicts that are explained here: frame, object, verdict

The screen has 256 by 128 pixels, so y is taken twice. Nearness at a distance w is 524280 / w: rounded down for what is
drawn, up for what is tested. Below, "at 0.5" is a place across the screen: x / w, from -1 to 1. In frame 0 the eye is
at x = 0, in frame 1 at x = 500. The wall, two triangles at w = 400 with nearness 1310, reaches from -0.5 to 0.5 in
frame 0 and from -1.75 to -0.75 in frame 1, and from -0.5 to 0.5 in height in both. A mesh is tested triangle by
triangle, each with its own nearness; a box is tested as the rectangle around its corners with the nearness of its
nearest corner."""
from msoc import ONE, Triangles, box, main, mesh, scene

NEAR, RADIUS = 8, 60
vertices, objects, telling = [], [], []
drawn, tested = Triangles(vertices), Triangles(vertices)

# A ball of eight triangles: two poles, and four points around them.
BALL = [(0, 2, 3), (0, 3, 4), (0, 4, 5), (0, 5, 2), (1, 3, 2), (1, 4, 3), (1, 5, 4), (1, 2, 5)]


def add(thing, *verdicts):
    """An object, and what its verdict must be in frames 0 and 1."""
    telling.extend((frame, len(objects), verdict) for frame, verdict in enumerate(verdicts))
    objects.append(thing)


def since(first):
    """The object triangles from the first on, as a mesh."""
    return mesh(first, len(tested.rows) - first)


def ball(x, y, z):
    first = len(tested.rows)
    around = [(RADIUS, 0, 0), (0, 0, RADIUS), (-RADIUS, 0, 0), (0, 0, -RADIUS)]
    points = [(x + dx, y + dy, z + dz) for dx, dy, dz in [(0, RADIUS, 0), (0, -RADIUS, 0)] + around]
    tested.solid(points, BALL)
    return since(first)


def sheet(x0, x1, y0, z0, y1, z1):
    """A flat sheet from its lower edge at (y0, z0) to its upper edge at (y1, z1)."""
    first = len(tested.rows)
    tested.quad((x0, y1, z1), (x1, y1, z1), (x1, y0, z0), (x0, y0, z0))
    return since(first)


def eye(x):
    return (ONE, 0, 0, -x, 0, 2 * ONE, 0, 0, 0, 0, ONE, 0)


drawn.quad((-200, 100, 400), (200, 100, 400), (200, -100, 400), (-200, -100, 400))

# 0: behind the wall, within 0.1 across and 0.2 in height; its nearest point has nearness 971. In frame 1 it lies from
# -0.93 to -0.73 and is seen past the wall's edge at -0.75.
add(ball(0, 0, 600), "occluded", "visible")
# 1: beside the wall, from 0.63 to 0.8. In frame 1 it lies around 0.
add(ball(500, 0, 700), "visible", "visible")
# 2: half behind it, from 0.4 to 0.6. One sample that shows is enough.
add(ball(300, 0, 600), "visible", "visible")
# 3: in front of it, where nothing is drawn. In frame 1 it lies from -3.6 to -1.9.
add(ball(0, 0, 200), "visible", "outside")
# 4: behind the eye. 5: above the screen, from 2.7 on. Nothing of them is on the screen.
add(ball(0, 0, -100), "outside", "outside")
add(ball(0, 900, 600), "outside", "outside")
# 6: a roof that slopes away from the eye, from w = 450 at a height of -180 / 450 = -0.4 to w = 2000 at 600 / 2000 =
# 0.3: behind the wall. 7: the box around it has a corner at w = 450 with a height of 600 / 450 = 1.33, so the
# rectangle around the box reaches past the wall. In frame 1 the roof's upper edge, from -0.3 to -0.2, lies beside the
# wall.
add(sheet(-100, 100, -90, 450, 300, 2000), "occluded", "visible")
add(box((-100, -90, 450), (100, 300, 2000)), "visible", "visible")
# 8: on the wall itself. 524280 / 400 = 1310.7: the wall has 1310 and the sheet 1311, so it isn't behind the wall.
# 9: at w = 401 it has 1308 and is behind. In frame 1 both lie at -1.12 or further left.
add(sheet(-50, 50, -20, 400, 20, 400), "visible", "outside")
add(sheet(-50, 50, -20, 401, 20, 401), "occluded", "outside")
# 10: across the near plane, from w = -60 to 60. It is cut there, at nearness 65535.
add(ball(0, 0, 0), "visible", "outside")
# 11: a mesh without triangles.
add(mesh(0, 0), "outside", "outside")

if __name__ == "__main__":
    main(scene((256, 128), NEAR, vertices, drawn.rows, objects, [eye(0), eye(500)], tested.rows), telling)
