"""Runs of programs: what each takes, and what else the machine did meanwhile."""
import dataclasses
import os
import pathlib
import re
import subprocess
import tempfile
import time

from starter import started

TOP = pathlib.Path(__file__).resolve().parent.parent
TICKS = os.sysconf("SC_CLK_TCK")
# What a run's output is for: thrown away, read to its end as it comes, or read for the numbers in it.
TIME, PIPE, PRINTED, NOTED, COUNTED = "time", "pipe", "printed", "noted", "counted"
VALGRIND = ("valgrind", "--tool=callgrind", "--callgrind-out-file=/dev/null")


class Fault(Exception):
    """A run that doesn't end as it should."""


@dataclasses.dataclass(frozen=True)
class Run:
    """A command, the file that it reads, and what is taken of it beside its seconds and its memory: nothing of TIME and
    PIPE, the numbers that it prints (PRINTED) or writes to standard error (NOTED), or its instructions (COUNTED)."""

    words: tuple
    source: pathlib.Path = None
    kind: str = TIME
    status: int = 0

    @property
    def command(self):
        """The command as a reader would write it."""
        words = " ".join([pathlib.Path(self.words[0]).name, *self.words[1:]]).replace(f"{TOP}/", "")
        read = f" < {self.source.name}" if self.source else ""
        return {COUNTED: "valgrind --tool=callgrind "}.get(self.kind, "") + words + read + (
            " | cat" if self.kind == PIPE else "")

    def taken(self):
        """The values of a run by their names, and the processor's seconds that it took."""
        return started(taken, self)


def taken(run):
    """The same, called in the starter."""
    own = time.process_time()
    words = (*VALGRIND, *run.words) if run.kind == COUNTED else run.words
    with open(run.source or os.devnull, "rb") as given, tempfile.TemporaryFile() as noted:
        out = subprocess.PIPE if run.kind in (PIPE, PRINTED) else subprocess.DEVNULL
        error = noted if run.kind in (NOTED, COUNTED) else subprocess.DEVNULL
        begin = time.perf_counter()
        child = subprocess.Popen(words, stdin=given, stdout=out, stderr=error)
        said = b"".join(read_all(child.stdout, run.kind == PRINTED)) if child.stdout else b""
        _, status, used = os.wait4(child.pid, 0)
        seconds = time.perf_counter() - begin
        child.returncode = os.waitstatus_to_exitcode(status)
        noted.seek(0)
        said += noted.read()
    if child.returncode != run.status:
        raise Fault(f"{run.command} ends with status {child.returncode}: {said[-300:].decode(errors='replace')}")
    values = {"seconds": seconds, "memory": 1024 * used.ru_maxrss}
    if reader := {PRINTED: printed, NOTED: groups_of, COUNTED: instructions_of}.get(run.kind):
        try:
            values |= reader(said.decode())
        except (ValueError, IndexError) as error:
            raise Fault(f"{run.command} tells something else: {said[-300:].decode(errors='replace')}") from error
    return values, used.ru_utime + used.ru_stime + time.process_time() - own


def read_all(pipe, is_kept):
    """What comes through a pipe, or nothing of it where it isn't kept."""
    while part := pipe.read(1 << 20):
        if is_kept:
            yield part


def printed(text):
    """The numbers of a text: each line's by its words, with a `~` in the place of each number that has a point, or by
    what stands before a colon and the line's last word."""
    values = {}
    for line in text.splitlines():
        if last := re.fullmatch(r"(.*): ([\d.]+(?:e[+-]?\d+)?)", line):
            values[last[1]] = float(last[2])
            continue
        label = " ".join(re.sub(r"\d+\.\d+", "~", line).split())
        for number, found in enumerate(re.findall(r"\d+\.\d+", line)):
            values[f"{label} {number}" if number else label] = float(found)
    return values


def groups_of(notes):
    """How many groups of `cull --group` are hidden in all frames, and how many members these have."""
    lines = [line.split() for line in notes.splitlines()]
    return {"hidden": sum(int(line[5]) for line in lines), "members": sum(int(line[7]) for line in lines)}


def instructions_of(notes):
    return {"instructions": int(re.findall(r"Collected : (\d+)", notes)[0])}


def quantiles(values):
    """The least of some values, their lower quartile and their median."""
    ordered = sorted(values)
    return [ordered[(len(ordered) - 1) * part // 4] for part in (0, 1, 2)]


@dataclasses.dataclass(frozen=True)
class Noise:
    """The share of the wanted processor time that the host took, and how many processors others kept busy."""

    steal: float = 0.0
    other: float = 0.0

    def is_above(self, limit):
        return self.steal > limit.steal or self.other > limit.other

    def __str__(self):
        return f"the host took {100 * self.steal:.1f} %, others {self.other:.2f} processors"


class Watch:
    """What the machine did from now on."""

    def __init__(self):
        self.begin, self.own, self.first = time.monotonic(), time.process_time(), processor_seconds()

    def noise(self, children):
        """The noise so far beside this process and so many seconds of processor time of its children."""
        if self.first is None:
            return Noise()
        busy, steal = (now - then for now, then in zip(processor_seconds(), self.first))
        passed = max(time.monotonic() - self.begin, 1 / TICKS)
        other = (busy - children - (time.process_time() - self.own)) / passed
        return Noise(steal / max(busy + steal, 1 / TICKS), max(0.0, other))


def processor_seconds():
    """Of all processors so far, the seconds that they were busy and those that the host took; None where it isn't
    told."""
    try:
        numbers = pathlib.Path("/proc/stat").read_text().split("\n", 1)[0].split()[1:9]
    except OSError:
        return None
    user, nice, system, _, _, irq, softirq, steal = map(int, numbers)
    return (user + nice + system + irq + softirq) / TICKS, steal / TICKS
