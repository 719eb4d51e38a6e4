#!/usr/bin/env python3
"""Writes random scenes of checks/many-scenes and a program's reports of them to standard output: of each the scene and
the report, with the number of its bytes in four bytes before it.

usage: scenes.py PROGRAM SCENES [SEED]"""
import importlib.machinery
import importlib.util
import pathlib
import random
import struct
import sys

PATH = str(pathlib.Path(__file__).resolve().parents[2] / "checks/many-scenes")


def many_scenes():
    loader = importlib.machinery.SourceFileLoader("many_scenes", PATH)
    module = importlib.util.module_from_spec(importlib.util.spec_from_loader("many_scenes", loader))
    sys.dont_write_bytecode = True
    loader.exec_module(module)
    return module


def main():
    program, count, first = sys.argv[1], int(sys.argv[2]), int(sys.argv[3]) if len(sys.argv) > 3 else 1
    scenes = many_scenes()
    for seed in range(first, first + count):
        scene = scenes.some_scene(random.Random(seed))
        report = scenes.report_of(program, ["cull"], scene)
        if report is None:
            sys.exit(f"the program gives no report of the scene of seed {seed}")
        for part in (scene, report):
            sys.stdout.buffer.write(struct.pack("<I", len(part)) + part)


if __name__ == "__main__":
    main()
