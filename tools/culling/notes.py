"""What maskcull says in a line or a status, as sentences for people. docs/FORMAT.md, 'Notes', has the numbers."""
import re

COUNTS = ("frames", "vertices", "occluder triangles", "object triangles", "objects", "batches")
LIMITS = ("1 to 256", "0 to 262,144", "0 to 65,536", "0 to 262,144", "0 to 65,536", "0 to 4,096")
PLACES = ("14 and 15", "16 to 19", "20 to 23", "24 to 27", "28 to 31", "32 to 35")

STATUSES = {
    0: "Done: the input was read, and all of the output written.",
    1: "Not a status of maskcull itself: a tool or a check refuses what it was given, and says why in a sentence.",
    2: "The command line was refused, or help or the version was requested; nothing was read or written. Scenes come by"
       " standard input: maskcull cull < town.msoc",
    3: "The scene was refused. The line `scene refused` on standard error has the fault's numbers.",
    4: "Standard input couldn't be read.",
    5: "Standard output couldn't be written: the disk is full, or its reader has ended. It has the beginning, at most.",
    6: "Standard error couldn't be written, where `live` or `--group` writes lines. The report is there up to their"
       " frame.",
    7: "There was no memory left. Standard output has the beginning of the text, at most.",
    9: "The log was refused: `live` can't have noted it of this scene with these --rounds and --watch.",
    10: "The scene has no frame of this number; the first is frame 0.",
    127: "The processor is older than x86-64-v2 (it has no SSE4.2 or POPCNT), or the shell found no such program.",
}

REFUSALS = {
    (1, 2): lambda needed, there: f"it needs {needed} bytes, and there are {there}: the file is cut",
    (2, 0): lambda: "it doesn't begin with the four bytes MSOC",
    (3, 1): lambda version: f"its version, in bytes 4 and 5, is {version}, and " + (
        "the maskcull that says so is older and reads version 1 alone, which `glb2scene --narrow` writes"
        if version in (1, 2) else "the versions are 1 and 2"),
    (4, 2): lambda width, height: f"its width and height, in bytes 6 to 9, are {width} and {height}: a width is a"
            " multiple of 8, a height one of 4, and both are at most 2048",
    (5, 1): lambda near: f"its near distance, in bytes 10 and 11, is {near}, and it is 1 to 1024",
    (6, 1): lambda byte: f"its byte 12 is {byte}: it is a winding of 0 to 2 in version 1, and 0 in version 2",
    (7, 1): lambda byte: f"its byte 13 is {byte}, and in version 1 it is 0",
    (8, 2): lambda which, count: f"it has {count} {COUNTS[which]}, by bytes {PLACES[which]}, and a scene has"
            f" {LIMITS[which]}",
    (9, 0): lambda: "bytes follow after its last camera",
    (10, 1): lambda number: f"vertex {number} has a number beyond 16,777,216 or -16,777,216",
    (11, 2): lambda table, number: f"{('occluder', 'object')[table]} triangle {number} names a vertex that isn't there",
    (12, 1): lambda number: f"object {number} has an unknown kind: 0 is a rectangle, 1 a box, 2 a mesh",
    (13, 1): lambda number: f"object {number} has numbers that its kind can't have: a least one is above its greatest,"
             " one is beyond 16,777,216, one that is 0 isn't, or a mesh has triangles that aren't there",
    (14, 1): lambda number: f"camera {number} has a number beyond 16,777,216 or -16,777,216",
    (16, 1): lambda byte: f"its grade, byte 13, is {byte}, and it is 0 (narrow) or 1 (wide)",
    (17, 1): lambda number: f"batch {number} has a winding above 2, or with it the batches have more than all occluder"
             f" triangles; or there are {number} batches, and these have fewer",
}
# Faults whose place depends on the scene's counts.
WITHIN = (10, 11, 12, 13, 14, 17)

PLAIN = {
    "usage refused": STATUSES[2],
    "read fault": STATUSES[4],
    "report fault": STATUSES[5],
    "out of memory": STATUSES[7],
    "log accepted": "The log is accepted: `live` may have noted it of this scene.",
}


def refused_log(good):
    return (f"The log is refused: {good} lines of it, from the first on, may come of this scene with these --rounds and"
            f" --watch, and line {int(good) + 1} doesn't, or is missing.")


def missing_frame(frame, count):
    return f"The scene has no frame {frame}: it has {count}, from 0 on."


def look(frame, turn, thing, verdict, counts):
    tiles = len(counts.split())
    return (f"In round {turn} of frame {frame} object {thing} was {verdict}, after so many pieces in each of {tiles}"
            " tiles as stand behind the tiles' numbers.")


def groups(frame, count, hidden, members):
    return (f"In frame {frame} {hidden} of {count} groups of boxes were found hidden as a whole, and with them"
            f" {members} boxes.")


FORMS = (
    (r"log refused (\d+)", refused_log),
    (r"no such frame (\d+) (\d+)", missing_frame),
    (r"live (\d+) (\d+) (\d+) (visible|occluded|outside)((?: \d+:\d+)*)", look),
    (r"groups (\d+) count (\d+) hidden (\d+) members (\d+)", groups),
)


def explained(line):
    """A sentence on a status or a note, or None where it isn't one."""
    words = " ".join(line.split())
    if words in PLAIN:
        return PLAIN[words]
    if number := re.fullmatch(r"(?:exit )?(?:status )?(\d+)", words):
        return status(int(number[1]))
    if re.fullmatch(r"scene refused( \d+)+", words):
        return refusal(tuple(map(int, words.split()[2:])))
    return next((say(*found.groups()) for form, say in FORMS if (found := re.fullmatch(form, words))), None)


def status(number):
    if number in STATUSES:
        return STATUSES[number]
    return f"Signal {number - 128} ended the program." if 128 < number < 193 else None


def refusal(numbers):
    """A sentence on a refusal by its numbers, or None where there is no such one."""
    kind, *rest = numbers
    say = REFUSALS.get((kind, len(rest)))
    if say is None or (kind == 8 and rest[0] >= len(COUNTS)) or (kind == 11 and rest[0] > 1):
        return None
    more = " `explain FILE.msoc` says where it stands, and what is there." if kind in WITHIN else ""
    return f"The scene is refused: {say(*rest)}.{more}"
