"""What bench/all measures, step by step, and how long each step may take."""
import dataclasses
import pathlib
import shutil
import subprocess
import typing

import logs
from measuring import COUNTED, NOTED, PIPE, PRINTED, Run
from subjects import MOST, Scenes

FEW, MANY = 4, 36
TRIANGLES = (1000, 5000, 10000, 20000, 40000, 65536)
SCREENS = ("320x180", "640x360", "1280x720", "1920x1080", "2048x2048")
OBJECTS = (100, 1000, 4096, 16384, 65536)
FRAMES = (1, 4, 16, 64, 128, 256)
NEAR = (1, 16, 64, 256, 1024)
BINS = (1, 2, 4, 8)
BESIDE = ("demo-1000", "demo-20000", "demo-65536", "rooms", "city", "scan", "hall")
ALONG = ("demo-1000", "demo-20000", "city", "scan", "hall")
SHARED = ("left-20000", "demo-1000", "demo-20000", "demo-65536", "rooms", "city")
GROUPED = ("city", "cells", "shelves")
RIVALS = ("whole", "whole_native", "floats")
MODULES = ("maskcull.wasm", "maskcull32.wasm")


@dataclasses.dataclass(frozen=True)
class Figure:
    """A number of a name: a value of a run, less that of another where there is one, over so many; `scale` makes it one
    of its unit."""

    name: str
    of: Run
    less: Run = None
    over: float = 1
    key: str = "seconds"
    scale: float = 1000
    unit: str = "ms"


@dataclasses.dataclass
class Step:
    """Figures or tables that are taken together, for at most so many seconds and good rounds; one round takes those
    that the machine's load doesn't change."""

    name: str
    title: str
    seconds: int
    figures: typing.Callable = None
    tables: typing.Callable = None
    rounds: int = 31


@dataclasses.dataclass
class Bench:
    """What is measured: a program and a library, by how many threads at most, and what else is here; by less of what
    takes long where it is `quick`. Nothing is made or run for it where it is `dry`."""

    program: str
    library: pathlib.Path
    top: pathlib.Path
    room: pathlib.Path
    most: int
    quick: bool = False
    dry: bool = False

    def __post_init__(self):
        self.scenes = Scenes(self.room, self.dry)

    @property
    def threads(self):
        return sorted({1, min(2, self.most), self.most})

    def has(self, *tools):
        return self.dry or all(map(shutil.which, tools))

    @property
    def rivals(self):
        return {name: str(self.room / "rivals" / name) for name in RIVALS} if self.has("make", "c++") else {}

    @property
    def measures(self):
        """The programs that measure calls, by their names."""
        if not (self.library and self.has("cc", "c++")):
            return {}
        return {name: str(self.room / name.replace(".", "-")) for name in ("measure.c", "measure.cpp", "threads.cpp")}

    @property
    def modules(self):
        """The modules for browsers that web/build has made."""
        made = [name for name in MODULES if self.dry or (self.top / "web" / "out" / name).exists()]
        return made if self.has("node") else []

    def cull(self, name, frames, *words, is_still=False, kind="time"):
        """A run of `cull` with more words, over so many frames of a scene."""
        return self.run("cull", *words, source=self.scenes.path(name, frames, is_still), kind=kind)

    def run(self, *words, source=None, kind="time", status=0):
        return Run((self.program, *words), source, kind, status)


def sharing(workers, bins=4):
    """The words by which threads share a frame."""
    cut = str(bins)
    return ("--workers", str(workers), "--bins-x", cut, "--bins-y", cut)


def side_by_side(workers):
    return ("--workers", str(workers))


def frame(bench, label, name, words, counts=(FEW, MANY), is_still=False):
    """A frame of a scene without reading: a run of many frames, less one of few."""
    few, many = (bench.cull(name, count, *words, is_still=is_still) for count in counts)
    return Figure(label, many, few, counts[1] - counts[0])


def shared_frame(bench, label, name, workers, words):
    """The same where threads share the frame. Of as many frames as threads each thread takes one, and the frames beyond
    are shared; all are the same frame."""
    counts = (workers, 2 * workers - 1) if workers > 1 else (FEW, MANY)
    return frame(bench, label, name, words, counts, is_still=True)


def frame_along(bench, label, name, workers):
    """A frame of a path, which threads make side by side, each at least four of them."""
    few, many = (max(1, part // workers) * workers for part in (16, 64))
    return frame(bench, label, name, side_by_side(workers), (few, max(many, 2 * few)))


def reading(bench):
    empty = bench.cull("random-0", None)
    for triangles in (1000, 20000, 65536):
        for workers in sorted({1, bench.most}):
            words = sharing(workers, 4 if workers > 1 else 1)
            yield Figure(f"reading/{triangles}/{workers}", bench.cull(f"random-{triangles}", None, *words), empty)


def demo(bench):
    yield Figure("start", bench.cull("random-0", None))
    for workers in sorted({1, bench.most}):
        yield Figure(f"demo/{workers}", bench.run("demo", *sharing(workers, 4 if workers > 1 else 1)))


def bins(bench):
    for name in ("demo-20000", "city"):
        for workers in bench.threads:
            for cut in BINS:
                yield shared_frame(bench, f"bins/{name}/{workers}/{cut}", name, workers, sharing(workers, cut))


def grouped(bench):
    for name in GROUPED:
        for workers in sorted({1, bench.most}):
            for label, words in (("none", ()), ("16", ("--group", "16"))):
                yield frame(bench, f"groups/{name}/{workers}/{label}", name, (*side_by_side(workers), *words))
        notes = bench.cull(name, 4, "--group", "16", kind=NOTED)
        for key in ("hidden", "members"):
            yield Figure(f"groups/{name}/{key}", notes, key=key, scale=1, unit=key)


def stealing(bench):
    shares, counts = sharing(bench.most), (4, 12)
    for name in SHARED:
        yield shared_frame(bench, f"steal/{name}/cull", name, bench.most, shares)
        yield frame(bench, f"steal/{name}/cull --steal", name, (*shares, "--steal"), counts, is_still=True)
        for command in ("live --rounds 8 --watch 8", "cull --early"):
            for words in (command, f"{command} --steal"):
                few, many = (bench.run(*words.split(), *shares, source=bench.scenes.path(name, count, True))
                             for count in counts)
                yield Figure(f"steal/{name}/{words}", many, few, counts[1] - counts[0])


def checking(bench):
    looks = tuple(logs.LOOKS)
    for kind, scale, unit in (("short", 1e6, "µs a line"), ("wide", 1e9, "ns a byte"), ("many", 1e3, "ms")):
        scene = bench.scenes.path(f"lines-{kind}")
        source, lines, size = log_of(bench, kind, scene, looks)
        check = bench.run("check", *looks, source=source)
        if kind == "many":
            live = bench.run("live", "--workers", "1", *looks, source=scene)
            yield Figure("check/many", check)
            yield Figure("check/live", live)
            yield Figure("check/memory", check, key="memory", scale=1e-6, unit="MB")
        else:
            over = lines if kind == "short" else size
            yield Figure(f"check/{kind}", check, bench.run("cull", source=scene), over, scale=scale, unit=unit)
    yield Figure("check/refused", bench.run("check", *looks, source=gigabyte_of(bench, scene), status=9))


def log_of(bench, kind, scene, looks):
    """A file for `check`: a scene's length, the scene, and a log that `live` wrote; its log's lines and its bytes."""
    path = bench.scenes.room / f"lines-{kind}.checked"
    if bench.dry:
        return path, 1, 1
    data = scene.read_bytes()
    if not path.exists():
        with open(scene, "rb") as given:
            log = subprocess.run([bench.program, "live", *looks], stdin=given, stdout=subprocess.DEVNULL,
                                 stderr=subprocess.PIPE, check=True).stderr
        bench.scenes.write(path, len(data).to_bytes(4, "little") + data + log)
    log = path.read_bytes()[4 + len(data) :]
    return path, log.count(b"\n"), len(log)


def gigabyte_of(bench, scene):
    """A scene with a gigabyte without a newline behind it, which takes no room on the disk."""
    path = bench.scenes.room / "gigabyte.checked"
    if not bench.dry and not path.exists():
        data = scene.read_bytes()
        bench.scenes.write(path, len(data).to_bytes(4, "little") + data)
        with open(path, "r+b") as file:
            file.truncate(4 + len(data) + logs.GIGABYTE)
    return path


def picturing(bench):
    for size in ("2048x2048", "1280x720"):
        for triangles in (0, 65536):
            scene = bench.scenes.path(f"picture-{size}-{triangles}")
            cull, shown = (bench.run(word, source=scene) for word in ("cull", "picture"))
            label = f"picture/{size}/{triangles}"
            yield Figure(label, shown, cull)
            yield Figure(f"{label}/pipe", bench.run("picture", source=scene, kind=PIPE), cull)
            for word, run in (("picture", shown), ("cull", cull)):
                yield Figure(f"{label}/memory of {word}", run, key="memory", scale=1e-6, unit="MB")


# Of each program that measures calls: a figure's name and unit, and the words of the line that has it.
CALLS = {
    "measure.c": (("nothing", "ns", "draw of no triangle ~ ns"), ("square", "ns", "test of 64 by 64 ~ ns, hidden"),
                  ("1000", "ms", "1,000 triangles ~ ms by one call"),
                  ("20000/1", "ms", "20,000 triangles ~ ms by one thread"),
                  ("20000/bands", "ms", "~ ms by four threads")),
    "measure.cpp": (("prepare/separate", "ms", "20,000 triangles ~ ms to prepare, ~ through a matrix,"
                     " ~ with clearing and drawing"),
                    ("prepare/grid", "ms", "as a grid ~ ms to prepare, ~ through a matrix,"
                     " ~ with clearing and drawing"),
                    ("box/26x27", "ns", "test_aabb of a box hidden, of 26 by 27 pixels ~ ns"),
                    ("box/64x66", "ns", "test_aabb of a box hidden, of 64 by 66 pixels ~ ns")),
}


def calling(bench):
    for program, path in bench.measures.items():
        words = (path, str(bench.most)) if program == "threads.cpp" else (path,)
        run = Run(words, kind=PRINTED)
        for label, unit, key in CALLS.get(program, ()):
            yield Figure(f"c/{label}", run, key=key, scale=1, unit=unit)
        if program == "threads.cpp":
            line = f"1 thread ~ ms, {bench.most} threads ~ ms: ~ of it"
            yield Figure("c/20000/pool", run, key=f"{line} 1", scale=1)
            yield Figure("c/20000/pool share", run, key=f"{line} 2", scale=1, unit="of one thread's time")


WEB = (("1000", "ms", "1,000 triangles, ms"), ("20000", "ms", "20,000 triangles, ms"),
       ("floats", "ms", "20,000 triangles in floats, ms"), ("boxes", "ms", "5,000 boxes, ms"))


def browsing(bench):
    script = str(bench.top / "web" / "tests" / "measure.mjs")
    for module in bench.modules:
        run = Run(("node", "--experimental-wasm-memory64", script, module), kind=PRINTED)
        for label, unit, key in WEB:
            yield Figure(f"web/{module}/{label}", run, key=key, scale=1, unit=unit)


def beside(bench):
    for name in BESIDE:
        yield frame(bench, f"beside/{name}/maskcull", name, side_by_side(1))
        for rival, path in bench.rivals.items():
            run = Run((path, "--rounds", "5"), bench.scenes.path(name, FEW), PRINTED)
            yield Figure(f"beside/{name}/{rival}", run, key="ms a frame ~", scale=1)


def along(bench):
    for name in ALONG:
        for workers in sorted({1, bench.most}):
            yield frame_along(bench, f"path/{name}/{workers}", name, workers)


def growing(kind, names):
    """The figures of a step in which a number grows: of each a scene, by one thread, and along a path by all."""
    def figures(bench):
        for number, name in names.items():
            for workers in sorted({1, bench.most}):
                yield frame_along(bench, f"grows/{kind}/{number}/{workers}", name, workers)
    return figures


def thread_counts(most):
    """1 to the processors; of many, the powers of two and all."""
    return sorted({*range(1, min(most, 8) + 1), *(2**k for k in range(10) if 2**k < most), most})


def more_threads(bench):
    for workers in thread_counts(bench.most):
        for name in ("demo-20000", "city"):
            yield frame_along(bench, f"grows/threads/{workers}/{name} path", name, workers)
            words = sharing(workers, 4 if workers > 1 else 1)
            yield shared_frame(bench, f"grows/threads/{workers}/{name} frame", name, workers, words)


def more_frames(bench):
    for count in FRAMES[:3] if bench.quick else FRAMES:
        for name in ("demo-20000", "city"):
            for workers in sorted({1, bench.most}):
                yield Figure(f"grows/frames/{count}/{name} {workers}", bench.cull(name, count, *side_by_side(workers)))


def more_near(bench):
    for distance in NEAR:
        for grade in ("narrow", "wide"):
            yield frame(bench, f"grows/near/{distance}/{grade}", f"{grade}-{distance}", side_by_side(1), (4, 20))


def remembering(bench):
    for workers in sorted({1, 2, bench.most, 16, 64}):
        run = bench.cull("greatest", 2 if bench.quick else MOST["frames"], *side_by_side(workers))
        yield Figure(f"memory/{workers}", run, key="memory", scale=1e-6, unit="MB")
        yield Figure(f"memory/{workers}/seconds", run, scale=1, unit="s")


def counted(bench, figure, name, counts=(FEW, 12)):
    few, many = (bench.cull(name, count, *side_by_side(1), kind=COUNTED) for count in counts)
    return Figure(figure, many, few, counts[1] - counts[0], "instructions", 1, "instructions")


def counting(bench):
    """Instructions a frame, under the names of the figures that they belong to."""
    if not bench.has("valgrind"):
        return
    for name in BESIDE[:2] if bench.quick else BESIDE:
        yield counted(bench, f"beside/{name}/maskcull", name)
    for distance in () if bench.quick else (16, 1024):
        for grade in ("narrow", "wide"):
            yield counted(bench, f"grows/near/{distance}/{grade}", f"{grade}-{distance}")


def verdicts(bench):
    """The other and the wrong verdicts of the rivals, as bench/rivals/compare.py counts them."""
    if not bench.rivals:
        return {}
    import compare
    room = bench.room / "rivals"
    rows = [[name, *map(str, compare.row_of(bench.program, room, bench.scenes.path(name, FEW)))]
            for name in (BESIDE[:2] if bench.quick else BESIDE)]
    return {"verdicts": {"head": list(compare.HEAD), "rows": rows}}


STEPS = (
    Step("demo", "start and demo", 20, demo),
    Step("reading", "a frame, with reading", 60, reading),
    Step("bins", "a frame, without reading", 150, bins),
    Step("groups", "groups of boxes", 120, grouped),
    Step("steal", "live, --early and --steal", 150, stealing),
    Step("check", "check", 50, checking, rounds=11),
    Step("picture", "picture", 60, picturing, rounds=15),
    Step("c", "calls from C", 60, calling, rounds=7),
    Step("web", "the modules in node", 60, browsing, rounds=7),
    Step("beside", "beside other cullers", 240, beside),
    Step("path", "along a path", 120, along),
    Step("triangles", "more triangles", 90, growing("triangles", {n: f"demo-{n}" for n in TRIANGLES}), rounds=15),
    Step("pixels", "more pixels", 90, growing("pixels", {size: f"screen-{size}" for size in SCREENS}), rounds=15),
    Step("objects", "more objects", 90, growing("objects", {n: f"boxes-{n}" for n in OBJECTS}), rounds=15),
    Step("threads", "more threads", 90, more_threads, rounds=21),
    Step("frames", "more frames", 80, more_frames, rounds=11),
    Step("near", "another near distance", 60, more_near, rounds=15),
    Step("memory", "memory of the greatest scene", 100, remembering, rounds=1),
    Step("instructions", "instructions", 150, counting, rounds=1),
    Step("verdicts", "verdicts of the rivals", 40, None, verdicts),
    Step("quality", "what is found, for docs/OCCLUDERS.md", 360),
)
