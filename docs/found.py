"""For docs/tables.py: the tables of docs/OCCLUDERS.md, which bench/quality.py counts."""
import functools

from shown import Missing, table


def rows_of(measured, name, *columns):
    """Of a table of bench/quality.py the rows, each by some columns, the first one too."""
    if name not in measured.tables:
        raise Missing(f"'{name}' of bench/quality.py")
    head, rows = measured.tables[name]["head"], measured.tables[name]["rows"]
    places = [0, *map(head.index, columns)]
    return [[row[place] for place in places] for row in rows]


def usual(name, first, measured):
    """A table with all columns."""
    columns = ("occluder triangles", "pieces a frame", "found", "holes")
    return table([first, *columns], rows_of(measured, name, *columns))


def number(model, measured):
    columns = ("pieces a frame", "found")
    return table([f"occluders, in the {model}", *columns], rows_of(measured, f"number {model}", *columns))


def beside(measured, left, right, *columns):
    """The rows of a table, each with those of another one behind it."""
    pairs = zip(rows_of(measured, left, *columns), rows_of(measured, right, *columns))
    return [first + second[1:] for first, second in pairs]


def sides(measured):
    rows = rows_of(measured, "sides", "occluder triangles", "pieces a frame", "found", "holes")
    rows[0][0] += ": from the side that is drawn"
    return table(["walls, roofs and the ground of the town", "occluder triangles", "pieces a frame", "found", "holes"],
                 rows)


ORDERS = {"near": ", the default: the nearest to an eye first", "cells": ": cell by cell of a grid, near ones first",
          "file": ": as the model has them", "area": ": the largest first"}


def order(measured):
    rows = beside(measured, "order town", "order hills", "found")
    for row in rows:
        row[0] += ORDERS[row[0].strip("`").split()[-1]]
    return table(["order", "found in the town", "found in the hills"], rows)


def passes(measured):
    pieces = rows_of(measured, "passes file town", "pieces a frame", "found")
    rows = [row + other[1:] for row, other in zip(pieces, rows_of(measured, "passes near town", "found"))]
    return table(["the 20,000 largest of the town", "pieces a frame", "found by `--order file`",
                  "found by `--order near`"], rows)


def when(measured):
    columns = ("in view", "truly hidden", "found, of what is truly hidden", "found, of what is in view")
    return table(["walls, roofs and the ground of the town, the eye is", *columns[:2], "found", columns[3]],
                 rows_of(measured, "when", *columns))


def objects(measured):
    columns = ("in view", "truly hidden", "found, of what is truly hidden", "found, of what is in view")
    rows = [[row[0].removeprefix("furniture as "), *row[1:]] for row in rows_of(measured, "objects", *columns)
            if row[0].startswith("furniture")]
    return table(["the town's furniture, tested as", *columns[:2], "found", columns[3]], rows)


def groups(measured):
    return table(["the town's furniture, tested", "tests", "occluded"],
                 rows_of(measured, "groups", "tests", "occluded"))


def size(measured):
    columns = ("called occluded", "of these also at 1280 by 720")
    rows = beside(measured, "size town", "size hills", *columns)
    return table(["screen", "called occluded in the town", "of these at 1280 by 720 too", "in the hills",
                  "of these at 1280 by 720 too"], rows)


def near(measured):
    if "near" not in measured.tables:
        raise Missing("'near' of bench/quality.py")
    told = measured.tables["near"]
    return table(["walls, roofs and the ground of the town, near distance", *told["head"][1:]], told["rows"])


def made(measured):
    """What tools/occluders made of four models. A count that was asked for twice is told once."""
    columns = ("triangles", "pieces a frame", "found", "holes", "of the model's pixels closed")
    rows = []
    for model in ("town", "hills", "hall", "abbey"):
        rows += [[f"{model}: {row[0]}", *row[1:]] for row in rows_of(measured, f"made {model}", *columns)]
    return table(["occluders", *columns], rows)


TOWN = "occluders, in the town"
TABLES = {
    "which": functools.partial(usual, "which", TOWN), "around": functools.partial(usual, "around", TOWN),
    "number-town": functools.partial(number, "town"), "number-hills": functools.partial(number, "hills"),
    "sides": sides, "order": order, "passes": passes, "when": when, "objects": objects, "house-groups": groups, "size": size,
    "near": near, "made": made,
}
