"""What the scripts here take from the toolchain's own rt, beyond its commands. The kit promises none of it: where a
name is gone, its caller does without."""
import importlib.machinery
import importlib.util
import os
import shutil
import sys

GIGABYTE = 1_000_000_000


def load():
    """rt as a module, which writes nothing beside itself."""
    sys.dont_write_bytecode = True
    loader = importlib.machinery.SourceFileLoader("rt", os.path.realpath(shutil.which("rt") or "rt"))
    made = importlib.util.module_from_spec(importlib.util.spec_from_loader("rt", loader))
    loader.exec_module(made)
    return made


def jobs():
    """How many proofs may run side by side: RT_JOBS, or one a processor that has 3 GB of free memory."""
    asked = os.environ.get("RT_JOBS", "")
    if asked.isdigit() and 0 < int(asked):
        return int(asked)
    rt = load()
    return max(1, min(rt.processors(), rt.free() // (3 * GIGABYTE)))


def copy_of_crates(top, to):
    """Copies a checkout's crates to another folder, without what was built of them."""
    shutil.copytree(f"{top}/crates", f"{to}/crates", ignore=shutil.ignore_patterns("out"))
    for name in ("crates.txt", "HANDLES"):
        shutil.copy(f"{top}/{name}", to)


def give_libraries(top, names):
    """Gives some crates of a copy, in which nothing is built, the libraries below them that were proved of the same
    files on this machine, and tells whether all were there.

    Where `rt check` or `rt lib` built them all in some checkout, they are those. Else they are those of `rt ci`, which
    keeps each under a sum of its files and of the libraries that it was built over. It leaves out the stamp by which
    other commands know a library, since its statements fit those libraries alone. A copy that is given them from the
    lowest on has no others, so they get their stamps here."""
    rt = load()
    rt.Crate.allowed = rt.handles_of(top)
    crates = rt.crates_of(top)
    below = {it for crate in crates if crate.name in names for it in crate.below()}
    below = [crate for crate in crates if crate in below]
    if all(rt.take_rlib(crate) for crate in below):
        return True
    for crate in below:
        shutil.rmtree(f"{crate.folder}/out", ignore_errors=True)
    kept, given = rt.Kept(crates), set()
    for crate in below:
        if given.issuperset(crate.below()) and kept.give(crate, False, kept.key(crate)):
            kept.is_built(crate)
            with open(f"{crate.folder}/out/rlib/stamp", "w") as file:
                file.write(crate.stamp())
            given.add(crate)
    return len(given) == len(below)


def hand_on_work(crate, to):
    """Has the next check of a crate in one folder begin with what the last one left in another."""
    if os.path.isdir(f"{crate}/out/incremental"):
        shutil.rmtree(f"{to}/out/incremental", ignore_errors=True)
        shutil.copytree(f"{crate}/out/incremental", f"{to}/out/incremental")
