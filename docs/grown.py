"""For docs/tables.py: the times that grow, each as a sentence and a plot."""
import functools
import typing

import plots
from shown import Missing, folded, listed, ms

# Of each: what grows, so many of which are told of at once, and the number of a name.
KINDS = {
    "triangles": ("triangles", 1000, int),
    "pixels": ("pixels", 100000, lambda name: int(name.split("x")[0]) * int(name.split("x")[1])),
    "objects": ("boxes", 1000, int),
}
LINE = 0.1  # what lies no further from a line is told to be on it
LEAST = 1  # a time of fewer milliseconds says too little of how times grow


class Point(typing.NamedTuple):
    """A number and its time, the least of its rounds; these differ from the low one to the high one."""

    number: int
    time: float
    low: float
    high: float
    is_noisy: bool

    def overlaps(self, other):
        return self.low <= other.high and other.low <= self.high


def threads_of(word):
    return "1 thread" if word == "1" else f"{word} threads"


def lines_of(measured, kind, number_of=int, name_of=str):
    """Of each line its name and its points."""
    lines = {}
    for name in measured.names(f"grows/{kind}/"):
        number, _, word = name.partition("/")
        figure = measured.figures[f"grows/{kind}/{name}"]
        times = [figure[part] for part in ("least", "quartile", "median")]
        point = Point(number_of(number), times[0], min(times), max(times), figure.get("noisy", False))
        lines.setdefault(name_of(word), []).append(point)
    if not lines:
        raise Missing(f"grows/{kind}")
    return {name: sorted(points) for name, points in lines.items()}


def pairs(lines):
    """Of each line the numbers and the times, as a plot has them."""
    return {name: [point[:2] for point in points] for name, points in lines.items()}


def line_through(points):
    """Where a line begins that lies as near as can be, by shares of the times, and how it rises; and how far off the
    farthest point is, as a share of its time."""
    weights = [1 / point.time**2 for point in points]
    whole = sum(weights)
    middle = sum(w * point.number for w, point in zip(weights, points)) / whole
    level = sum(w * point.time for w, point in zip(weights, points)) / whole
    rise = (sum(w * (point.number - middle) * (point.time - level) for w, point in zip(weights, points))
            / sum(w * (point.number - middle) ** 2 for w, point in zip(weights, points)))
    begin = level - rise * middle
    return begin, rise, max(abs(begin + rise * point.number - point.time) / point.time for point in points)


def judged(points):
    """The points that tell how a time grows: none below the least time, and none that takes longer than a greater one,
    which is noise."""
    long = [point for point in points if point.time >= LEAST]
    return [point for place, point in enumerate(long) if all(point.time <= other.time for other in long[place:])]


def rise_between(before, after):
    return (after.time - before.time) / (after.number - before.number)


def bent(points, all_points, many, each):
    """How a time grows that isn't on a line: at the beginning and at the end, each by times that differ more than their
    rounds do."""
    level = max(place for place, point in enumerate(points) if point.overlaps(points[0]))
    start, end = points[level], points[-1]
    if start == end:
        return f"{ms(points[0].time)} to {ms(end.time)} ms, which differ no more than their rounds do"
    after = next((point for point in points[level + 1:] if not point.overlaps(start)), end)
    before = next((point for point in points[-2:level:-1] if not point.overlaps(end)), start)
    begin = (f"up to {start.number:,} times differ no more than their rounds do, then" if level else
             "at first" if start == all_points[0] else f"from {start.number:,} on")
    first, last = (ms(many * rise_between(*pair)) for pair in ((start, after), (before, end)))
    if (start, after) == (before, end):
        return f"{begin} {first} ms for each {each}"
    return f"not linear, {begin} {first} ms for each {each}, at the end {last}"


def growth(name, points, many, what):
    """How a time grows, in a sentence."""
    each = f"{many:,} {what}" if many > 1 else what.removesuffix("s")
    left = judged(points)
    star = "*" if any(point.is_noisy for point in left) else ""
    name = f"{name[0].upper()}{name[1:]}{star}"
    if len(left) < 2:
        return f"{name}: too few times to say how it grows."
    begin, rise, off = line_through(left)
    if len(left) > 2 and off <= LINE:
        others = [f"{point.number:,}" for point in points if point not in left]
        told = f", but for {listed(others)}" if others else ""
        return f"{name}: linear, {ms(begin)} ms and {ms(many * rise)} for each {each}, within {100 * off:.0f} %{told}."
    return f"{name}: {bent(left, points, many, each)}."


def shown(name, words, sentences):
    """A section's sentences and its plot."""
    return f"{folded(' '.join(sentences))}\n\n![{words}](grows_{name}.svg)\n"


def growing(kind, measured):
    what, many, number_of = KINDS[kind]
    lines = lines_of(measured, kind, number_of, threads_of)
    sentences = [growth(name, points, many, what) for name, points in lines.items()]
    return shown(kind, f"Milliseconds a frame against {what}", sentences)


def place_of(word):
    """What a line of threads or of frames is called: a scene, and how it is drawn."""
    name, _, way = word.partition(" ")
    scene = {"demo-20000": "20,000 triangles", "city": "a city"}[name]
    return f"{scene}, " + {"path": "path", "frame": "one frame"}.get(way, threads_of(way))


def threads(measured):
    lines = lines_of(measured, "threads", name_of=place_of)
    sentences = []
    for name, points in lines.items():
        first, last = points[0], points[-1]
        sentences.append(f"{name[0].upper()}{name[1:]}: {threads_of(str(last.number))} are"
                         f" {first.time / last.time:.1f} times as fast as one.")
    return shown("threads", "Milliseconds a frame against threads", sentences)


def frames(measured):
    lines = lines_of(measured, "frames", name_of=place_of)
    sentences = [growth(name, points, 1, "frames") for name, points in lines.items()]
    return shown("frames", "Milliseconds of a run against frames", sentences)


def near(measured):
    sentences = []
    for name, points in lines_of(measured, "near").items():
        times = [point.time for point in points]
        if max(times) <= (1 + LINE) * min(times):
            told = f"{ms(min(times))} to {ms(max(times))} ms: it doesn't grow"
        elif max(point.low for point in points) <= min(point.high for point in points):
            told = f"{ms(min(times))} to {ms(max(times))} ms, which differ no more than their rounds do"
        else:
            told = f"{ms(times[0])} ms at first, {ms(times[-1])} at the end, and {ms(max(times))} at most"
        sentences.append(f"A {name} scene takes {told}.")
    return shown("near", "Milliseconds a frame against the near distance", sentences)


def note(measured):
    head = measured.head
    return f"{head['processor']}, {head['date']}, commit {head['commit']}"


def plot_of_kind(kind, measured):
    what, _, number_of = KINDS[kind]
    return plots.plot(pairs(lines_of(measured, kind, number_of, threads_of)), note(measured), (what, "ms a frame"))


def plot_of_threads(measured):
    return plots.plot(pairs(lines_of(measured, "threads", name_of=place_of)), note(measured), ("threads", "ms a frame"))


def plot_of_frames(measured):
    return plots.plot(pairs(lines_of(measured, "frames", name_of=place_of)), note(measured), ("frames", "ms a run"))


def plot_of_near(measured):
    return plots.plot(pairs(lines_of(measured, "near")), note(measured), ("near distance", "ms a frame"),
                      has_powers=True)


TABLES = {f"grows-{kind}": functools.partial(growing, kind) for kind in KINDS} | {
    "grows-threads": threads, "grows-frames": frames, "grows-near": near}
PLOTS = {f"grows_{kind}": functools.partial(plot_of_kind, kind) for kind in KINDS} | {
    "grows_threads": plot_of_threads, "grows_frames": plot_of_frames, "grows_near": plot_of_near}
