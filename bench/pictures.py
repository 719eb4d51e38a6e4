#!/usr/bin/env python3
"""Milliseconds that `picture` of a built maskcull takes above `cull` of the same scene without objects.

usage: bench/pictures.py PROGRAM [--rounds 15]

On screens of 2048 by 2048 and of 1280 by 720 pixels, empty and with 65,536 random triangles: the shortest of so many
runs each, into a file that takes all, and once more into a pipe that is read to its end. The most resident memory of
each command stands behind. Measure on a quiet machine."""
import argparse
import os
import struct
import subprocess
import tempfile
import time

import frames
from starter import make_starter, started

SIZES = ((2048, 2048), (1280, 720))


def scene(size, triangles):
    """A scene of frames.py without objects, on a screen of another size."""
    data = bytearray(frames.scene(frames.Form(), 1, triangles, 0))
    struct.pack_into("<2H", data, 6, *size)
    return bytes(data)


def run(words, file, output):
    """The seconds of a run, and the most memory that it had resident, in kilobytes."""
    with open(file, "rb") as source:
        begin = time.perf_counter()
        child = subprocess.Popen(words, stdin=source, stdout=output)
        if output == subprocess.PIPE:
            while child.stdout.read(1 << 20):
                pass
        _, status, usage = os.wait4(child.pid, 0)
        child.returncode = os.waitstatus_to_exitcode(status)
        taken = time.perf_counter() - begin
    if child.returncode != 0:
        raise SystemExit(f"{' '.join(words)} ends with status {child.returncode}")
    return taken, usage.ru_maxrss


def least(words, file, rounds, output):
    runs = [started(run, words, file, output) for _ in range(rounds)]
    return min(taken for taken, _ in runs), max(memory for _, memory in runs)


def main():
    parser = argparse.ArgumentParser(description=__doc__, formatter_class=argparse.RawDescriptionHelpFormatter)
    parser.add_argument("program")
    parser.add_argument("--rounds", type=int, default=15)
    args = parser.parse_args()
    make_starter()
    with tempfile.NamedTemporaryFile(suffix=".msoc") as file:
        for size in SIZES:
            for triangles in (0, 65536):
                file.seek(0)
                file.truncate()
                file.write(scene(size, triangles))
                file.flush()
                culled, before = least([args.program, "cull"], file.name, args.rounds, subprocess.DEVNULL)
                shown, after = least([args.program, "picture"], file.name, args.rounds, subprocess.DEVNULL)
                piped, _ = least([args.program, "picture"], file.name, args.rounds, subprocess.PIPE)
                print(f"{size[0]} by {size[1]}, {triangles} triangles: {1000 * (shown - culled):.1f} ms above cull,"
                      f" {1000 * (piped - culled):.1f} into a pipe; {after} KB resident, cull {before}")


if __name__ == "__main__":
    main()
