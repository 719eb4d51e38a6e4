#!/usr/bin/env python3
"""Writes the tables and plots of docs/PERFORMANCE.md, README.md and docs/OCCLUDERS.md from docs/measured.json.

usage: docs/tables.py                       writes what stands between marks, and the plots
       docs/tables.py --check               tells which tables and plots aren't the file's
       docs/tables.py --measured FILE --top FOLDER    another file, the pages of another folder

bench/all writes the file. A table stands between the lines `<!-- table NAME -->` and `<!-- end -->`, and NAME is one of
those below. Where the file is missing, the pages are left as they are, and nothing is checked."""
import argparse
import json
import math
import pathlib
import re
import subprocess
import sys

HERE = pathlib.Path(__file__).resolve().parent
sys.path.append(str(HERE.parent / "bench"))
import found  # noqa: E402
import grown  # noqa: E402
from shown import Missing, folded, listed, ms, table  # noqa: E402

PAGES = ("README.md", "docs/PERFORMANCE.md", "docs/OCCLUDERS.md")
MARKED = re.compile(r"<!-- table ([\w-]+) -->\n(.*?)<!-- end -->", re.S)
SCENES = {
    "demo-1000": "1,000 random triangles", "demo-20000": "20,000", "demo-65536": "65,536",
    "rooms": "rooms, seen from inside", "city": "a city with 10,000 boxes",
    "scan": "a closed surface of 51,200 small triangles", "hall": "a furnished hall",
    "left-20000": "20,000 triangles in the left quarter of the view",
}
BESIDE = ("demo-1000", "demo-20000", "demo-65536", "rooms", "city", "scan", "hall")
RIVALS = {"whole": "the same method in C++", "whole_native": "the same, for this machine",
          "floats": "in floats, with AVX2"}


class Measured:
    """What bench/all measured."""

    def __init__(self, data):
        self.head, self.figures, self.tables = data["head"], data["figures"], data["tables"]

    @property
    def threads(self):
        """One thread, two where there are more, and all."""
        most = self.head["threads"]
        return sorted({1, min(2, most), most})

    @property
    def ends(self):
        """One thread, and all."""
        return sorted({1, self.head["threads"]})

    def has(self, name):
        return name in self.figures

    def least(self, name):
        """The least of a figure's rounds."""
        if name not in self.figures:
            raise Missing(name)
        return self.figures[name]["least"]

    def cell(self, name, form=ms):
        """The same as a table has it, with a star where no three rounds were quiet."""
        return form(self.least(name)) + ("*" if self.figures[name].get("noisy") else "")

    def names(self, begin):
        """The names that begin so, without that, in their order."""
        return [name[len(begin):] for name in self.figures if name.startswith(begin)]


def count(threads):
    return "1 thread" if threads == 1 else f"{threads} threads"


def machine(measured):
    """Of which program, where and when, and how quiet it was."""
    head = measured.head
    model = f" (model {head['model']})" if head["model"] else ""
    steal, most = 100 * head["steal"], 100 * head["most steal"]
    told = (f"Measured by `bench/all` on {head['date']}, of commit {head['commit']}, on {head['processors']}"
            f" processors: {head['processor']}{model}. Of the processor time that was wanted the host took"
            f" {steal:.1f} %, in no round more than {most:.1f} %; {head['rounds taken again']} noisy rounds were taken"
            f" again, {head['rounds']} count.")
    if head["noisy"]:
        steps = listed([f"'{step}'" for step in head["noisy"]])
        told += f" A star marks figures of which no three rounds were quiet, in {steps}."
    return folded(told)


def reading(measured):
    rows = [[f"{number:,}" + (" triangles" if number == 1000 else ""),
             *(measured.cell(f"reading/{number}/{threads}") for threads in measured.ends)]
            for number in (1000, 20000, 65536)]
    return table(["ms a frame", *map(count, measured.ends)], rows)


def bins(measured):
    rows = []
    for name, words in (("demo-20000", "20,000 random triangles"), ("city", SCENES["city"])):
        for threads in measured.threads:
            cells = [measured.cell(f"bins/{name}/{threads}/{cut}") for cut in (1, 2, 4, 8)]
            rows.append([f"{words}, {count(threads)}" if threads == 1 else count(threads), *cells])
    return table(["ms a frame", "bins 1 by 1", "2 by 2", "4 by 4", "8 by 8"], rows)


def groups(measured):
    words = {"city": "the city, boxes in an order of chance", "cells": "boxes in the order of `in_cells`",
             "shelves": "boxes of some 300 by 80 pixels on shelves behind a wall"}
    head, rows = ["ms a frame"], []
    for threads in measured.ends:
        head += [count(threads), "`--group 16`"]
    for name, told in words.items():
        hidden = f"{measured.least(f'groups/{name}/hidden'):,.0f}"
        cells = [measured.cell(f"groups/{name}/{threads}/{how}")
                 for threads in measured.ends for how in ("none", "16")]
        rows.append([told, hidden, *cells])
    return table([head[0], "hidden groups, in four frames", *head[1:]], rows)


def steal(measured):
    commands = ("live --rounds 8 --watch 8", "cull --early", "cull")
    head = [f"ms a frame, {count(measured.head['threads'])}"]
    for command in commands:
        head += [f"`{command}`", "`--steal`"]
    rows = [[SCENES[name].removesuffix(" with 10,000 boxes"),
             *(measured.cell(f"steal/{name}/{command}{more}") for command in commands for more in ("", " --steal"))]
            for name in ("left-20000", "demo-1000", "demo-20000", "demo-65536", "rooms", "city")]
    return table(head, rows)


def check(measured):
    speed = 1000 / measured.least("check/wide")
    rows = [["a short line, above `cull` of the scene", f"{measured.cell('check/short')} µs"],
            ["lines that state each tile of 2048 by 2048 pixels", f"{speed:.0f} MB a second"],
            ["20,000 triangles, eight boxes, eight rounds", f"{measured.cell('check/many')} ms"],
            ["what `live` took to write that log, one worker", f"{measured.cell('check/live')} ms"],
            ["a gigabyte without a newline, refused", f"{measured.cell('check/refused')} ms"],
            ["memory for the 20,000 triangles", f"{measured.cell('check/memory', '{:.0f}'.format)} MB"]]
    return table(["`check`", "takes"], rows)


def picture(measured):
    rows = []
    for size in ("2048x2048", "1280x720"):
        for triangles in (0, 65536):
            name = f"picture/{size}/{triangles}"
            memory = [measured.cell(f"{name}/memory of {word}", "{:.0f}".format) for word in ("picture", "cull")]
            rows.append([f"{size.replace('x', ' by ')}, {triangles:,} triangles", measured.cell(name),
                         measured.cell(f"{name}/pipe"), *memory])
    return table(["`picture`", "ms above `cull`", "into a pipe", "MB of memory", "of `cull`"], rows)


def calls(measured):
    threads = count(measured.head["threads"])
    rows = (("a draw without a triangle", "nothing"), ("a test of 64 by 64 hidden pixels", "square"),
            ("1,000 triangles by one call", "1000"),
            ("the 20,000 triangles of `demo`'s first frame, by one thread", "20000/1"),
            ("the same by four threads, each onto a band of rows (`measure.c`)", "20000/bands"),
            (f"the same by {threads} that are kept, and set up slices first (`threads.cpp`)", "20000/pool"),
            ("from C++: to prepare 20,000 separate triangles", "prepare/separate"),
            ("20,000 of a grid", "prepare/grid"),
            ("to test a box by its matrix, hidden, 26 by 27 pixels", "box/26x27"), ("64 by 66 pixels", "box/64x66"))
    return table(["Call", "Time"], [[words, f"{measured.cell(f'c/{name}')} {measured.figures[f'c/{name}']['unit']}"]
                                    for words, name in rows])


def browser(measured):
    modules = [name for name in ("maskcull.wasm", "maskcull32.wasm") if measured.has(f"web/{name}/20000")]
    if not modules:
        raise Missing("web")
    told = {"maskcull.wasm": "64-bit memory", "maskcull32.wasm": "32-bit memory, SIMD"}
    of_library = {"1000": "c/1000", "20000": "c/20000/1"}
    rows = []
    for key, words in (("1000", "1,000 triangles"), ("20000", "the 20,000 triangles"),
                       ("floats", "the same from floats"), ("boxes", "5,000 boxes")):
        own = of_library.get(key)
        rows.append([words, measured.cell(own) if own and measured.has(own) else "",
                     *(measured.cell(f"web/{name}/{key}") for name in modules)])
    return table(["ms", "library for C", *(told[name] for name in modules)], rows)


def rivals_of(measured):
    return [name for name in RIVALS if measured.has(f"beside/city/{name}")]


def beside_rows(measured, names, rivals):
    for name in names:
        yield [SCENES[name], *(measured.cell(f"beside/{name}/{who}") for who in ("maskcull", *rivals))]


def beside(measured):
    rivals = rivals_of(measured)
    rows = list(beside_rows(measured, BESIDE, rivals))
    head = ["ms a frame, one thread", "maskcull", *(RIVALS[name] for name in rivals)]
    counted = [measured.figures[f"beside/{name}/maskcull"].get("instructions") for name in BESIDE]
    if all(counted):
        head.append("maskcull's instructions, million")
        rows = [[*row, f"{number / 1e6:.1f}"] for row, number in zip(rows, counted)]
    return table(head, rows)


def verdicts(measured):
    if "verdicts" not in measured.tables:
        raise Missing("verdicts")
    rows = measured.tables["verdicts"]["rows"]
    sums = [sum(int(row[column]) for row in rows) for column in range(2, 6)]
    is_same = all(row[1] == "same" for row in rows)
    row = [f"the {len(rows)} above, four frames each", "same" if is_same else "different", *(f"{it:,}" for it in sums)]
    head = ["scenes", "reports in whole numbers", "verdicts", "others in floats", "wrong in floats",
            "wrong in maskcull"]
    return table(head, [row])


def readme(measured):
    rivals = [name for name in rivals_of(measured) if name != "whole_native"]
    rows = list(beside_rows(measured, ("demo-20000", "rooms", "city", "scan"), rivals))
    rows[0][0] = "20,000 random triangles"
    head = ["ms a frame, one thread, without reading the scene", "maskcull", *(RIVALS[name] for name in rivals)]
    return table(head, rows)


def path(measured):
    rows = []
    for name in ("demo-1000", "demo-20000", "city", "scan", "hall"):
        times = [f"path/{name}/{threads}" for threads in measured.ends]
        words = SCENES[name].removesuffix(" with 10,000 boxes")
        rows.append([words + (" random triangles" if words == "20,000" else ""), *map(measured.cell, times),
                     f"{measured.least(times[0]) / measured.least(times[-1]):.1f}"])
    return table(["ms a frame, along a path of 64 frames", *map(count, measured.ends), "times as fast"], rows)


def memory(measured):
    workers = [name for name in measured.names("memory/") if name.isdigit()]
    if not workers:
        raise Missing("memory")
    rows = [[number, measured.cell(f"memory/{number}", "{:.0f}".format),
             measured.cell(f"memory/{number}/seconds", "{:.1f}".format)] for number in workers]
    return table(["`--workers`", "MB at most", "seconds, 256 frames"], rows)


# Of so many cameras each machine takes parts of so many frames.
CAMERAS, PART = 10000, 250


def machines(measured):
    """What a path of the city takes on so many machines."""
    most = measured.head["threads"]
    frame = measured.least(f"path/city/{most}")
    start = measured.least(f"grows/frames/1/city {most}")
    rows = []
    for number in (1, 2, 8, 40):
        parts = math.ceil(CAMERAS / PART / number)
        rows.append([str(number), str(parts), f"{parts * (start + (PART - 1) * frame) / 1000:.1f}"])
    return table(["machines like this one", f"parts of {PART} cameras each", "seconds"], rows)


TABLES = {
    "machine": machine, "reading": reading, "bins": bins, "groups": groups, "steal": steal, "check": check,
    "picture": picture, "calls": calls, "browser": browser, "beside": beside, "verdicts": verdicts, "readme": readme,
    "path": path, "memory": memory, "machines": machines, **grown.TABLES, **found.TABLES,
}


def text_of(name, measured):
    """What stands between a table's marks."""
    if name not in TABLES:
        raise KeyError(f"there is no table {name}")
    try:
        return TABLES[name](measured)
    except Missing as missing:
        return f"*Not measured: docs/measured.json has no {missing}.*"


def filled(page, measured):
    """A page's text, its tables made anew."""
    return MARKED.sub(lambda mark: f"<!-- table {mark[1]} -->\n{text_of(mark[1], measured)}\n<!-- end -->", page)


def plots_of(measured):
    """The plots' file names and their texts."""
    for name, draw in grown.PLOTS.items():
        try:
            yield f"{name}.svg", "\n".join(draw(measured)) + "\n"
        except Missing:
            continue


def faults(path, top):
    """Which tables and plots aren't those of a file, and marks that don't stand in pairs."""
    for name in PAGES:
        page = (top / name).read_text()
        marks = re.findall(r"<!-- (table|end)\b", page)
        if marks != ["table", "end"] * (len(marks) // 2):
            yield f"{name} has marks that aren't in pairs"
        yield from (f"{name} has a table {mark}, which docs/tables.py doesn't make"
                    for mark, _ in MARKED.findall(page) if mark not in TABLES)
    if not path.exists():
        return
    measured = Measured(json.loads(path.read_text()))
    if measured.head["quick"]:
        yield f"{path.name} was made by bench/all --quick"
    for name in PAGES:
        for mark, text in MARKED.findall((top / name).read_text()):
            if mark in TABLES and text != text_of(mark, measured) + "\n":
                yield f"{name}: the table {mark} isn't that of {path.name}: docs/tables.py writes it"
    for name, text in plots_of(measured):
        file = top / "docs" / name
        if not file.exists() or file.read_text() != text:
            yield f"docs/{name} isn't the plot of {path.name}: docs/tables.py draws it"


def write(path, top):
    measured = Measured(json.loads(path.read_text()))
    for name, text in plots_of(measured):
        (top / "docs" / name).write_text(text)
    for name in PAGES:
        page = top / name
        page.write_text(filled(page.read_text(), measured))
    drawn = subprocess.run([sys.executable, str(HERE / "figures.py"), "paths", str(top / "docs" / "PERFORMANCE.md")],
                           stdout=subprocess.PIPE, check=True).stdout
    (top / "docs" / "paths.svg").write_bytes(drawn)


def main():
    parser = argparse.ArgumentParser(usage=__doc__)
    parser.add_argument("--check", action="store_true")
    parser.add_argument("--measured", type=pathlib.Path, default=HERE / "measured.json")
    parser.add_argument("--top", type=pathlib.Path, default=HERE.parent)
    asked = parser.parse_args()
    if asked.check:
        told = list(faults(asked.measured, asked.top))
        print("\n".join(told) or "the tables and plots are those of the file")
        sys.exit(1 if told else 0)
    if not asked.measured.exists():
        sys.exit(f"tables.py: there is no {asked.measured}, which bench/all writes")
    write(asked.measured, asked.top)


if __name__ == "__main__":
    main()
