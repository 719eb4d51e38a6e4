#!/usr/bin/env python3
"""Milliseconds a frame that a built maskcull takes with boxes in groups, beside those without.

usage: bench/groups.py PROGRAM [--groups 2,16] [--workers 1,4] [--side 500] [--rounds 15]

Three scenes: a city of 2,000 fronts and sides of buildings and 10,000 boxes that stand on the ground, seen from four
cameras, with its boxes in an order of chance and in that of their cells on the ground, of this side; and 10,000 boxes
of some 300 by 80 pixels on shelves behind a wall, where those that stand side by side follow one another, and then
those behind them. Each scene has 64 frames, its cameras in turn. A frame's time is the shortest of so many runs, less
that of a run of the same scene without boxes, by its number of frames; so reading the scene's triangles isn't counted,
reading its boxes is, in both. For each number of workers the time without groups comes first, then that of each size of
groups, with how many are hidden in all frames and how many members these have. Measure on a quiet machine."""
import argparse
import math
import pathlib
import subprocess
import sys

import frames

sys.path.insert(0, str(pathlib.Path(__file__).resolve().parent.parent / "scenes"))
import msoc  # noqa: E402

GROUND = -170
BOXES = 10000
FRAMES = 64
# boxes side by side on a shelf, and shelves above one another
ACROSS, HIGH = 4, 9


def city(numbers):
    """The fronts and sides of buildings, nearest first, boxes on the ground, and four cameras along a street."""
    buildings = []
    for _ in range(1000):
        lane, wide, deep = numbers.below(13) - 6, 250 + numbers.below(500), 300 + numbers.below(600)
        x = lane * 1400 + (250 if lane >= 0 else -250 - wide) + numbers.below(100)
        z = 200 + numbers.below(16000)
        buildings.append((z, z + deep, x, x + wide, 400 + numbers.below(1800)))
    walls = msoc.Triangles([])
    for z0, z1, x0, x1, high in sorted(buildings):
        street = (x0, z1, x0, z0) if x0 > 0 else (x1, z0, x1, z1)
        for ax, az, bx, bz in ((x0, z0, x1, z0), street):
            top = GROUND + high
            walls.quad((ax, top, az), (bx, top, bz), (bx, GROUND, bz), (ax, GROUND, az))
    boxes = []
    for _ in range(BOXES):
        x, z = numbers.below(18000) - 9000, 100 + numbers.below(17000)
        w, h, d = 10 + numbers.below(60), 30 + numbers.below(200), 10 + numbers.below(60)
        boxes.append(msoc.box((x - w, GROUND, z - d), (x + w, GROUND + h, z + d)))
    turns = enumerate((0.0, 0.12, -0.2, 0.45))
    return (1920, 1080), walls, boxes, [camera(yaw, 40 * frame, 500 * frame) for frame, yaw in turns]


def camera(yaw, dx, dz):
    """A camera that looks down the street, turned by an angle, at a place across and along it."""
    c, n = math.cos(yaw), math.sin(yaw)
    across = [round(msoc.ONE * value) for value in (0.5625 * c, 0, -0.5625 * n)]
    along = [round(msoc.ONE * value) for value in (n, 0, c)]
    return (*across, round(-0.5625 * (c * dx - n * dz)), 0, msoc.ONE, 0, 0, *along, round(-(n * dx + c * dz)))


def large_boxes(numbers):
    """A wall before all, and shelves behind it. Those at one height stand one behind the other, and their boxes are the
    larger the farther they stand."""
    wall = msoc.Triangles([])
    wall.quad((-400, 400, 300), (400, 400, 300), (400, -400, 300), (-400, -400, 300))
    boxes = []
    for number in range(BOXES):
        shelf, place = divmod(number, ACROSS)
        height, row = divmod(shelf, -(-BOXES // (ACROSS * HIGH)))
        z = 600 + 20 * row
        # half a pixel there is a 1280th of the distance, since the screen shows as much to either side as to the front
        at = [z * (300 * (2 * place + 1 - ACROSS) + numbers.below(41) - 20) // 1280,
              z * (80 * (2 * height + 1 - HIGH) + numbers.below(11) - 5) // 720]
        half = [z * (280 + numbers.below(41)) // 1280, z * (75 + numbers.below(11)) // 720]
        low, high = ([middle + side * long for middle, long in zip(at, half)] for side in (-1, 1))
        boxes.append(msoc.box((*low, z), (*high, z + 10)))
    return (1280, 720), wall, boxes, [frames.IDENTITY]


def seconds(program, words, data, rounds):
    """The shortest time of some runs, and how many groups are hidden in all frames, with how many members."""
    least = frames.seconds(program, words, data, rounds)
    notes = subprocess.run([program, *words], input=data, stdout=subprocess.DEVNULL, stderr=subprocess.PIPE, check=True)
    lines = [line.split() for line in notes.stderr.decode().splitlines()]
    return least, sum(int(line[5]) for line in lines), sum(int(line[7]) for line in lines)


def measure(program, name, parts, boxes, asked):
    size, walls, _, seen = parts
    cameras = seen * (FRAMES // len(seen))
    near = frames.FIRST_NEAR
    bare, data = (msoc.scene(size, near, walls.vertices, walls.rows, some, cameras) for some in ([], boxes))
    for workers in map(int, asked.workers.split(",")):
        words = ["cull", "--workers", str(workers)]
        start = frames.seconds(program, words, bare, asked.rounds)
        for most in (None, *map(int, asked.groups.split(","))):
            more = [] if most is None else ["--group", str(most)]
            least, hidden, members = seconds(program, words + more, data, asked.rounds)
            told = "without groups" if most is None else f"groups of {most}: {hidden} hidden, {members} members"
            print(f"{name}, {workers} workers: {1000 * (least - start) / len(cameras):.2f} ms, {told}", flush=True)


def main():
    parser = argparse.ArgumentParser(description=__doc__, formatter_class=argparse.RawDescriptionHelpFormatter)
    parser.add_argument("program")
    parser.add_argument("--groups", default="2,16")
    parser.add_argument("--workers", default="1,4")
    parser.add_argument("--side", type=int, default=500)
    parser.add_argument("--rounds", type=int, default=15)
    asked = parser.parse_args()
    parts = city(frames.Numbers(1))
    measure(asked.program, "city, by chance", parts, parts[2], asked)
    measure(asked.program, "city, by cells", parts, msoc.in_cells(parts[2], asked.side), asked)
    parts = large_boxes(frames.Numbers(1))
    measure(asked.program, "large boxes on shelves behind a wall", parts, parts[2], asked)


if __name__ == "__main__":
    main()
