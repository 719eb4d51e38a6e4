#!/usr/bin/env python3
"""Compares the rivals' verdicts with maskcull's, and the floats' with those of an exact z-buffer.

usage: bench/rivals/compare.py PROGRAM SCENE.. [--out bench/rivals/out]

PROGRAM is a built maskcull, and the rivals are in --out. For each scene: whether the rival in whole numbers gives the
report's bytes; of how many verdicts, all frames taken together, so many of the rival in floats aren't maskcull's; and
how often floats, and maskcull, call an object occluded that has a sample which isn't hidden."""
import argparse
import pathlib
import subprocess
import sys

HERE = pathlib.Path(__file__).resolve().parent


def report(words, scene):
    with open(scene, "rb") as source:
        return subprocess.run(words, stdin=source, stdout=subprocess.PIPE, check=True).stdout


def verdicts(text):
    """The verdicts in a report, in their order."""
    return [line.split()[1] for line in text.decode().splitlines() if line[:1].isdigit()]


def wrong(given, exact):
    """How many are called occluded that have a sample which isn't hidden."""
    return sum((one, other) == ("occluded", "visible") for one, other in zip(given, exact, strict=True))


HEAD = ("scene", "whole numbers", "verdicts", "floats differ", "floats wrong", "maskcull wrong")


def row_of(program, out, scene):
    """What HEAD has behind a scene's name."""
    own = report([program, "cull"], scene)
    is_same = report([out / "whole", "--report"], scene) == own
    exact = verdicts(report([out / "whole", "--exact"], scene))
    ours, floats = verdicts(own), verdicts(report([out / "floats", "--report"], scene))
    differ = sum(one != other for one, other in zip(ours, floats, strict=True))
    return "same" if is_same else "DIFFERENT", len(ours), differ, wrong(floats, exact), wrong(ours, exact)


def main():
    parser = argparse.ArgumentParser(usage=__doc__)
    parser.add_argument("program")
    parser.add_argument("scenes", nargs="+", type=pathlib.Path)
    parser.add_argument("--out", default=HERE / "out", type=pathlib.Path)
    given = parser.parse_args()
    print("| " + " | ".join(HEAD) + " |\n|" + "---|" * len(HEAD))
    different = False
    for scene in given.scenes:
        row = (scene.stem, *row_of(given.program, given.out, scene))
        different = different or row[1] != "same"
        print("| " + " | ".join(map(str, row)) + " |", flush=True)
    sys.exit(different)


if __name__ == "__main__":
    main()
