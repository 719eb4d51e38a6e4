#!/usr/bin/env python3
"""How long a built maskcull takes to check logs that it wrote, and how much memory.

usage: bench/logs.py PROGRAM [--rounds 5]

Four logs of 8 rounds of looks at 8 objects, each written by `live` with one worker: short lines over 256 frames of
few pieces, of which a line's time is told; 64 lines that state each tile of a screen of 2048 by 2048, of which
megabytes a second are told; 64 lines over a list of 20,000 triangles, of which the seconds of `check` and of `live`
are told; and a gigabyte without a newline behind the last scene, which is refused at its first byte. A time is the
shortest of --rounds runs; what `cull` takes for the scene is subtracted from the first two. Resident memory is the
greatest of all runs of `check`. Measure on a quiet machine."""
import argparse
import os
import pathlib
import subprocess
import sys
import tempfile
import time

sys.path.append(str(pathlib.Path(__file__).resolve().parent.parent / "scenes"))
from msoc import box, rectangle, scene  # noqa: E402
from starter import make_starter, started  # noqa: E402

LOOKS = ["--rounds", "8", "--watch", "8"]
# x and y as they stand, and w from z.
CAMERA = (65536, 0, 0, 0, 0, 65536, 0, 0, 0, 0, 65536, 0)
GIGABYTE = 2**30


def triangles(count, half_width, half_height):
    """Triangles side by side and one behind the other, by a fixed rule."""
    vertices = []
    for k in range(count):
        w = 200 + 37 * k % 15000
        x, y = (7919 * k % 1601 - 800) * w // 1000, (104729 * k % 1601 - 800) * w // 1000
        vertices += [(x, y, w), (x + half_width * w // 1000, y, w), (x, y + half_height * w // 1000, w + 50)]
    return vertices, [(3 * k, 3 * k + 1, 3 * k + 2) for k in range(count)]


def measured(words, files):
    """Seconds, resident bytes and status of a run over three files."""
    with open(files[0], "rb") as source, open(files[1], "wb") as report, open(files[2], "wb") as notes:
        begin = time.perf_counter()
        child = subprocess.Popen(words, stdin=source, stdout=report, stderr=notes)
        _, status, used = os.wait4(child.pid, 0)
        seconds = time.perf_counter() - begin
    child.returncode = os.waitstatus_to_exitcode(status)
    return seconds, 1024 * used.ru_maxrss, child.returncode


def run(program, words, given):
    """Seconds, resident bytes and status of a run, and what it wrote: of `live` its notes, else its report."""
    with tempfile.TemporaryDirectory() as room:
        files = [pathlib.Path(room) / name for name in ("source", "report", "notes")]
        with open(files[0], "wb") as source:
            for part in given:
                source.write(part)
        told = started(measured, [program, *words], files)
        return *told, files[2 if words[0] == "live" else 1].read_bytes()


def least(program, words, given, rounds, status=0):
    runs = [run(program, words, given) for _ in range(rounds)]
    for _, _, ended, text in runs:
        if ended != status:
            sys.exit(f"{' '.join(words)} ended with {ended}: {text[:80]!r}")
    return min(r[0] for r in runs), max(r[1] for r in runs), runs[0][3]


def looked(program, rounds, data):
    """Seconds of `cull`, of `live` and of `check`, the log, and the memory of `check`."""
    cull, _, _ = least(program, ["cull"], [data], rounds)
    live, _, log = least(program, ["live", "--workers", "1", *LOOKS], [data], rounds)
    check, memory, answer = least(program, ["check", *LOOKS], [len(data).to_bytes(4, "little"), data, log], rounds)
    if answer != b"log accepted\n":
        sys.exit(f"an own log isn't accepted: {answer!r}")
    return cull, live, check, log, memory


def short_lines():
    """256 frames of few pieces, with small rectangles."""
    small = [rectangle(40 * k, 40, 40 * k + 8, 48, 9000) for k in range(8)]
    return scene((640, 480), 16, *triangles(8, 300, 300), small, 256 * [CAMERA])


def wide_lines():
    """One frame of few pieces, with rectangles that have each tile of the greatest screen."""
    whole = [rectangle(0, 0, 2048, 2048, 9000 + k) for k in range(8)]
    return scene((2048, 2048), 16, *triangles(8, 300, 300), whole, [CAMERA])


def many_pieces():
    """One frame of 20,000 triangles, with boxes."""
    boxes = [box((400 * k - 1600, -300, 4000), (400 * k - 1300, 300, 4400)) for k in range(8)]
    return scene((1280, 720), 16, *triangles(20000, 60, 60), boxes, [CAMERA])


SCENES = {"short": short_lines, "wide": wide_lines, "many": many_pieces}


def main():
    parser = argparse.ArgumentParser(description=__doc__, formatter_class=argparse.RawDescriptionHelpFormatter)
    parser.add_argument("program")
    parser.add_argument("--rounds", type=int, default=5)
    args = parser.parse_args()
    make_starter()

    cull, _, check, log, most_memory = looked(args.program, args.rounds, short_lines())
    lines = log.count(b"\n")
    print(f"{lines} short lines: {(check - cull) / lines * 1e6:.2f} microseconds a line")

    cull, _, check, log, memory = looked(args.program, args.rounds, wide_lines())
    most_memory = max(most_memory, memory)
    print(f"{len(log)} bytes of wide lines: {len(log) / (check - cull) / 1e6:.0f} MB a second")

    data = many_pieces()
    _, live, check, _, memory = looked(args.program, args.rounds, data)
    most_memory = max(most_memory, memory)
    print(f"20,000 triangles: check {check:.3f} seconds, live {live:.3f} seconds")

    given = [len(data).to_bytes(4, "little"), data, *(1024 * [b"x" * (GIGABYTE // 1024)])]
    check, memory, answer = least(args.program, ["check", *LOOKS], given, 1, status=9)
    print(f"a gigabyte without a newline: {answer.decode().strip()} after {check:.3f} seconds")
    print(f"resident memory of check: {max(most_memory, memory) / 1e6:.0f} MB at most")


if __name__ == "__main__":
    main()
