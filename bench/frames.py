#!/usr/bin/env python3
"""Milliseconds a frame of a built maskcull, on generated scenes of 1280 by 720 pixels.

usage: bench/frames.py PROGRAM [--triangles 1000,20000,65536] [--rectangles 500] [--rounds 5]
                       [--workers 1,2,4] [--bins 4] [--batch 64] [--path 64]
                       [--grade narrow|wide] [--near 16] [--scene-batches 1] [--words "cull"] [--uneven]
                       [--scan 160] [--hall 200]

Each scene has random triangles between near and far, as a camera that looks down the z axis sees them, and random
rectangles as objects. A frame's time is the shortest of --rounds runs of the program, less that of a run without
triangles and with one rectangle, so that start-up isn't counted; reading the scene and writing the report are. With
more than one worker the screen is cut into --bins columns and rows of bins, and the workers share the frame. With
--path the same picture is drawn that many times, by cameras in a row, and workers take frames side by side; the time
of a fourth of them is subtracted, so that reading isn't counted either. With --grade the scenes are of version 2 and
have this grade, and their triangles come in --scene-batches; without it they are of version 1. With --near the near
distance is another, and all coordinates and distances are multiplied by a 64th of it, rounded up: the picture stays
what it is. With --words the program runs this command with these options, such as "live --rounds 8 --steal". With
--uneven all triangles lie in the left quarter of the view: the picture is pressed together there.

With --scan or --hall the scenes are these instead: a closed surface of small triangles that share their vertices, of
so many rings, and a hall with so many things in it, each with 500 boxes and seen by four cameras in turn. A frame's
time is then that of 32 frames, the time of 4 subtracted.
Measure on a quiet machine."""
import argparse
import struct
import subprocess
import time

import models

WIDTH, HEIGHT = 1280, 720
FIRST_NEAR = 16
IDENTITY = (65536, 0, 0, 0, 0, 65536, 0, 0, 0, 0, 65536, 0)
GRADES = ("narrow", "wide")


class Numbers:
    """A linear congruential generator of 64 bits: the same scene for the same seed."""

    def __init__(self, seed):
        self.state = seed

    def below(self, end):
        self.state = (self.state * 6364136223846793005 + 1442695040888963407) % 2**64
        return (self.state >> 33) % end


class Form:
    """What a scene is apart from its picture: its near distance, and in version 2 a grade and a number of batches. In
    version 1 the grade is None. Where it is uneven, its triangles lie in the left quarter of the view."""

    def __init__(self, near=FIRST_NEAR, grade=None, parts=1, uneven=False):
        self.near, self.grade, self.parts, self.uneven = near, grade, parts, uneven
        # so many units are one of the scenes with the first near distance
        self.unit = -(-near // 64)

    def header(self, frames, *counts):
        """The header with the numbers of vertices, occluder triangles, object triangles and objects."""
        if self.grade is None:
            return struct.pack("<4s4H2BH4I", b"MSOC", 1, WIDTH, HEIGHT, self.near, 0, 0, frames, *counts)
        grade = GRADES.index(self.grade)
        return struct.pack("<4s4H2BH5I", b"MSOC", 2, WIDTH, HEIGHT, self.near, 0, grade, frames, *counts, self.parts)

    def batches(self, triangles):
        """The table of batches: as equal as can be, and none drops a triangle."""
        if self.grade is None:
            return b""
        ends = [triangles * part // self.parts for part in range(self.parts + 1)]
        return b"".join(struct.pack("<IB", end - first, 0) for first, end in zip(ends, ends[1:]))


def pressed(x, w):
    """Where a point at this distance stands in the left quarter of the view, by where it stands in the whole."""
    return (max(-w, min(x, w)) + w) // 4 - w


def scene(form, seed, triangles, rectangles, frames=1):
    numbers = Numbers(seed)
    vertices = bytearray()
    for _ in range(triangles):
        x, y, z = numbers.below(16001) - 8000, numbers.below(4001) - 2000, 200 + numbers.below(16000)
        for _ in range(3):
            vx, vy, vz = x + numbers.below(801) - 400, y + numbers.below(801) - 400, z + numbers.below(201) - 100
            across = 36864 * vx >> 16
            place = (pressed(across, vz) if form.uneven else across, vy, vz)
            vertices += struct.pack("<3i", *(form.unit * number for number in place))
    indices = struct.pack(f"<{3 * triangles}I", *range(3 * triangles))
    objects = bytearray()
    for _ in range(rectangles):
        w, h = 8 + numbers.below(120), 8 + numbers.below(120)
        x, y = numbers.below(WIDTH - w), numbers.below(HEIGHT - h)
        distance = form.unit * (FIRST_NEAR + 200 + numbers.below(16000))
        objects += struct.pack("<B6i", 0, x, y, x + w, y + h, distance, 0)
    header = form.header(frames, 3 * triangles, triangles, 0, rectangles)
    cameras = frames * struct.pack("<12i", *IDENTITY)
    return header + vertices + indices + form.batches(triangles) + objects + cameras


def words(command, workers, bins, batch):
    cut = bins if workers > 1 else 1
    options = {"--workers": workers, "--bins-x": cut, "--bins-y": cut, "--batch": batch}
    return command + [str(word) for option in options.items() for word in option]


def seconds(program, words, data, rounds):
    least = float("inf")
    for _ in range(rounds):
        begin = time.perf_counter()
        subprocess.run([program, *words], input=data, stdout=subprocess.DEVNULL, stderr=subprocess.DEVNULL, check=True)
        least = min(least, time.perf_counter() - begin)
    return least


def path(program, command, form, triangles, rectangles, workers, frames, rounds):
    """Seconds a frame along a path."""
    few = frames // 4
    options = [*command, "--workers", str(workers)]
    times = [seconds(program, options, scene(form, 1, triangles, rectangles, n), rounds) for n in (few, frames)]
    return (times[1] - times[0]) / (frames - few)


def model(program, name, number, workers, rounds):
    """Prints the times of a frame of a model, for each number of workers."""
    parts = getattr(models, name)(Numbers(1), number)
    few, many = models.scene(parts, 4), models.scene(parts, 36)
    for count in workers:
        options = ["cull", "--workers", str(count)]
        times = [seconds(program, options, data, rounds) for data in (few, many)]
        frame = (times[1] - times[0]) / 32
        told = f"{name} of {len(parts[0].rows)} triangles, {len(parts[1])} boxes, {count} workers"
        print(f"{told}: {1000 * frame:.2f} ms")


def main():
    parser = argparse.ArgumentParser(description=__doc__, formatter_class=argparse.RawDescriptionHelpFormatter)
    parser.add_argument("program")
    parser.add_argument("--triangles", default="1000,20000,65536")
    parser.add_argument("--rectangles", type=int, default=500)
    parser.add_argument("--rounds", type=int, default=5)
    parser.add_argument("--workers", default="1,2,4")
    parser.add_argument("--bins", type=int, default=4)
    parser.add_argument("--batch", type=int, default=64)
    parser.add_argument("--path", type=int, default=0)
    parser.add_argument("--grade", choices=GRADES)
    parser.add_argument("--near", type=int, default=FIRST_NEAR)
    parser.add_argument("--scene-batches", type=int, default=1)
    parser.add_argument("--words", default="cull")
    parser.add_argument("--uneven", action="store_true")
    parser.add_argument("--scan", type=int, default=0)
    parser.add_argument("--hall", type=int, default=0)
    args = parser.parse_args()
    numbers_of_workers = [int(count) for count in args.workers.split(",")]
    if args.scan or args.hall:
        for name, number in (("scan", args.scan), ("hall", args.hall)):
            if number:
                model(args.program, name, number, numbers_of_workers, args.rounds)
        return
    form = Form(args.near, args.grade, args.scene_batches, args.uneven)
    command = args.words.split()
    empty = seconds(args.program, command, scene(form, 1, 0, 1), args.rounds)
    for triangles in map(int, args.triangles.split(",")):
        data = scene(form, 1, triangles, args.rectangles)
        for workers in numbers_of_workers:
            shared = words(command, workers, args.bins, args.batch)
            frame = seconds(args.program, shared, data, args.rounds) - empty
            print(f"{triangles:>7} triangles, {args.rectangles} rectangles, {workers} workers: {1000 * frame:.2f} ms")
            if args.path:
                frame = path(args.program, command, form, triangles, args.rectangles, workers, args.path, args.rounds)
                print(f"{'':>7} along a path of {args.path} frames: {1000 * frame:.2f} ms, {1 / frame:.0f} a second")


if __name__ == "__main__":
    main()
