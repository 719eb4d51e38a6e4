"""How far a tool is, on a terminal: nothing in its first two seconds, then a bar of `tqdm` where that is installed, and
otherwise a plain counter. Where standard error is no terminal nothing is written."""
import sys
import time

DELAY, BETWEEN = 2.0, 0.2
CLEAR = "\x1b[K"
# Of loops within loops the outermost one is shown.
shown = []


def watched(items, what, total=None):
    """The items one after another; meanwhile a terminal tells how many are done, of how many there are."""
    if shown or not sys.stderr.isatty():
        yield from items
        return
    shown.append(what)
    try:
        yield from told(items, what, len(items) if total is None else total)
    finally:
        shown.clear()


def told(items, what, total):
    try:
        from tqdm import tqdm
    except ImportError:
        return counted(items, what, total)
    return tqdm(items, desc=what, total=total, delay=DELAY, leave=False)


def counted(items, what, total):
    """The items, with a line that is cleared in the end. The cursor stays at its beginning, for other words."""
    begin, last = time.monotonic(), 0.0
    try:
        for number, item in enumerate(items, 1):
            yield item
            now = time.monotonic()
            if now - begin >= DELAY and now - last >= BETWEEN:
                last = now
                print(f"{CLEAR}{what}: {number} of {total}\r", end="", file=sys.stderr, flush=True)
    finally:
        if last:
            print(CLEAR, end="", file=sys.stderr, flush=True)
