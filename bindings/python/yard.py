#!/usr/bin/env python3
"""The program of bindings/c/yard.c, with lists or with numpy's arrays.

usage: yard.py [--numpy] [--time]    --time also tells how many microseconds a test of all boxes takes"""
import sys
import time

import maskcull

TO_CLIP = [1, 0, 0, 0, 0, 1.75, 0, 0, 0, 0, -1, -1, 0, 0, -0.25, 0]
INDICES = [0, 1, 2, 0, 2, 3]


def numbers(state=1):
    """Calls of it draw the next number below a bound."""
    def next_below(below):
        nonlocal state
        state = (state * 1103515245 + 12345) & 0x7FFFFFFF
        return (state >> 16) % below
    return next_below


def scene():
    next_below, walls, boxes = numbers(), [], []
    for _ in range(40):
        x, z, half, top = next_below(64) - 32, -4 - next_below(60), 1 + next_below(4), next_below(8)
        walls.append([x - half, top, z, x + half, top, z, x + half, -4, z, x - half, -4, z])
    for _ in range(1000):
        x, y, z = next_below(128) - 64, next_below(8) - 4, 2 - next_below(128)
        boxes += [x, y, z - 1, x + 1, y + 1, z]
    return walls, boxes


def microseconds(call):
    """The least of many, in time of the processor."""
    least = float("inf")
    for _ in range(200):
        before = time.process_time()
        for _ in range(10):
            call()
        least = min(least, time.process_time() - before)
    return least * 1e6 / 10


def main():
    walls, boxes = scene()
    frame = maskcull.Frame(1280, 720, near=0.125)
    frame.clear()
    if "--numpy" in sys.argv:
        import numpy

        for wall in walls:
            frame.draw(numpy.array(wall, numpy.float32).reshape(4, 3), numpy.array(INDICES, numpy.uint16), TO_CLIP)
        boxes, to_clip = numpy.array(boxes, numpy.float32), numpy.array(TO_CLIP, numpy.float32)
        verdicts = frame.test_boxes(boxes, to_clip)
        picture = numpy.frombuffer(frame.picture(), numpy.uint16).astype(numpy.uint64)
        total = int((picture * numpy.arange(1, picture.size + 1, dtype=numpy.uint64)).sum())
    else:
        for wall in walls:
            frame.draw(wall, INDICES, TO_CLIP)
        to_clip = TO_CLIP
        verdicts = frame.test_boxes(boxes, to_clip)
        total = sum(place * near for place, near in enumerate(frame.picture(), 1))
    counts = (verdicts.count(kind) for kind in (maskcull.VISIBLE, maskcull.OCCLUDED, maskcull.OUTSIDE))
    print("visible {} occluded {} outside {}".format(*counts))
    print("picture", total)
    if "--time" in sys.argv:
        print(f"boxes {microseconds(lambda: frame.test_boxes(boxes, to_clip)):.1f}")


if __name__ == "__main__":
    main()
