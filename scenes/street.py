#!/usr/bin/env python3
"""A street between two rows of houses, seen along a path of six frames.

usage: scenes/street.py > scenes/street.msoc
       scenes/street.py --telling    the verdicts that are explained here: frame, object, verdict

One unit is ten centimetres. The street runs along z, its middle is x = 0, the ground is y = 0, and the eye is at
y = 17. The screen has 640 by 320 pixels, so y is taken twice. Nearness at a distance w is 655350 / w: rounded down for
what is drawn, up for what is tested. Below, "at 0.5" is a place across the screen: x / w, from -1 to 1.

Drawn are the four sides of 16 houses, a bus and a wall at the street's end: 138 triangles. Tested are 46 objects."""
from msoc import ONE, Triangles, box, main, rectangle, scene

NEAR, EYE = 10, 17
HOUSES = 8
vertices, objects, telling = [], [], []
drawn = Triangles(vertices)


def sides(x0, x1, top, z0, z1):
    """The four upright sides of a block that stands on the ground."""
    drawn.quad((x0, top, z0), (x1, top, z0), (x1, 0, z0), (x0, 0, z0))
    drawn.quad((x1, top, z0), (x1, top, z1), (x1, 0, z1), (x1, 0, z0))
    drawn.quad((x1, top, z1), (x0, top, z1), (x0, 0, z1), (x1, 0, z1))
    drawn.quad((x0, top, z1), (x0, top, z0), (x0, 0, z0), (x0, 0, z1))


def add(thing, *verdicts):
    """An object, and what its verdict must be in some frames."""
    telling.extend((frame, len(objects), verdict) for frame, verdict in verdicts)
    objects.append(thing)


def ahead(x, z):
    """The eye at (x, z), looking down the street."""
    return (ONE, 0, 0, -x, 0, 2 * ONE, 0, -2 * EYE, 0, 0, ONE, -z)


def to_the_left(x, z):
    """The eye at (x, z), turned to the left: what lies further down the street is further right."""
    return (0, 0, ONE, -z, 0, 2 * ONE, 0, -2 * EYE, -ONE, 0, 0, x)


# House k of each row: 90 wide, 80 high, 100 deep, with a gap of 20 to the next.
for k in range(HOUSES):
    for x0, x1 in ((-140, -50), (50, 140)):
        sides(x0, x1, 80, 100 + 120 * k, 200 + 120 * k)
sides(-13, 13, 32, 500, 620)  # the bus
drawn.quad((-300, 120, 1100), (300, 120, 1100), (300, 0, 1100), (-300, 0, 1100))  # the wall at the end

# 0: a cyclist in front of the bus, as seen from behind it. Frame 0: the bus' rear at w = 500 reaches from -0.026 to
# 0.026 across, and from -0.068 to 0.06 in height; its nearness is 1310. The cyclist, from w = 640 on, lies within
# 0.0063, from -0.053 to 0.003, with nearness 1024. Frame 3: the eye is beside the bus. Its left side ends at 19 / 60
# = 0.317, and the cyclist begins at 28 / 98 = 0.286. Frame 4: the cyclist has w from -60 to -42: behind the eye.
add(box((-4, 0, 640), (4, 18, 658)), (0, "occluded"), (3, "visible"), (4, "outside"))

# 1: a tower of 400 behind the left row. In frame 0 it lies from -0.408 to -0.327. There the eaves of the first house,
# along x = -50, stand at most at 126 / 122 = 1.03 and at least at 126 / 153 = 0.82: the tower rises above them. In
# frame 1 it lies from -0.588 to -0.459, and the eaves in front of it stand at 126 / 109 = 1.16 or more: above the
# screen.
add(box((-200, 0, 490), (-170, 400, 520)), (0, "visible"), (1, "occluded"))

# 2: the sun, a rectangle: no camera moves it. It lies from 0.1875 to 0.25 across, from 0.94 to 0.81 in height, with
# nearness 1. In frame 0 the eaves of the right row are at 126 / 200 = 0.63 there, so it is seen above them. In frame
# 5 the eye looks at the left row from a distance of 50, where the gap ends at 10 / 50 = 0.2: houses stand in front.
add(rectangle(380, 10, 400, 30, 1000000), (0, "visible"), (5, "occluded"))

# 3 to 18: sheds in the gardens, left and right. That of house 1 on the left is seen in frame 0 from -220 / 250 =
# -0.88 to -180 / 290 = -0.62, from -0.136 to 0.064 in height; nearness 2622. The front of house 0 at w = 100 reaches
# from -1.4 to -0.5, down to -0.34, and has nearness 6553. The shed of house 0 ends at -180 / 170, so it isn't on the
# screen.
for k in range(HOUSES):
    for x0, x1 in ((-220, -180), (180, 220)):
        verdicts = {0: [(0, "outside")], 1: [(0, "occluded")]}.get(k, [])
        add(box((x0, 0, 130 + 120 * k), (x1, 25, 170 + 120 * k)), *verdicts)

# 19 to 32: trees behind the gaps between houses, left and right. From the street they stand behind the houses: tree 4
# on the left, in frame 0 from -215 / 685 = -0.314 to -205 / 695 = -0.295, has house 0 in front, whose street side
# reaches from -0.5 to -0.25. In frame 5 the eye looks through that gap: at w = 205 it is 0.071 * 205 = 14 wide to
# either side, the tree 5. On the right all is behind the eye.
for k in range(HOUSES - 1):
    for x0, x1 in ((-215, -205), (205, 215)):
        verdicts = [(5, "outside")] if x0 > 0 else []
        if k == 4 and x0 < 0:
            verdicts = [(0, "occluded"), (5, "visible")]
        add(box((x0, 0, 205 + 120 * k), (x1, 45, 215 + 120 * k)), *verdicts)

# 33 to 40: cars at the right side of the road. In frame 0 nothing stands in front of the first one. In frame 3 the
# bus runs along beside the eye and past it: its left side is cut at the near plane and hides all from 0.317 on, down
# to -34 / 60 = -0.57 at its far end and further down nearer by. Car 4 has w from 25 to 65: from 0.89 on, behind it.
for k in range(HOUSES):
    add(box((26, 0, 105 + 120 * k), (42, 15, 145 + 120 * k)), *{0: [(0, "visible")], 4: [(3, "occluded")]}.get(k, []))

# 41 to 44: wagons behind the wall at the street's end, 30 high. In frame 0 the wall at w = 1100 has nearness 595 and
# the wagons, from w = 1120 on, 586. 45: a chimney behind it, 200 high: in frame 4, from w = 450 on, it ends at 366 /
# 460 = 0.80 or above, and the wall, at w = 400, at 206 / 400 = 0.52.
for k in range(4):
    add(box((-90 + 50 * k, 0, 1120), (-50 + 50 * k, 30, 1140)), (0, "occluded"), (4, "occluded"))
add(box((-5, 0, 1150), (5, 200, 1160)), (4, "visible"))

CAMERAS = [ahead(0, 0), ahead(0, 150), ahead(0, 300), ahead(-32, 560), ahead(0, 700), to_the_left(0, 690)]

if __name__ == "__main__":
    main(scene((640, 320), NEAR, vertices, drawn.rows, objects, CAMERAS), telling)
