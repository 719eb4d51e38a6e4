#!/usr/bin/env python3
"""What isn't allowed is an error of Python, and nothing is read past an array."""
import array
import copy
import ctypes
import pickle
import threading

import maskcull

CLIP, QUAD = [1, 0, 0, 0, 0, 1, 0, 0, 0, 0, -1, -1, 0, 0, -0.25, 0], [0, 1, 2, 0, 2, 3]
WALL, BOX = [-9, 9, -4, 9, 9, -4, 9, -9, -4, -9, -9, -4], [-1, -1, -9, 1, 1, -8]
frame = maskcull.Frame(64, 32, near=0.1)


def make(*sizes, **options):
    return lambda: maskcull.Frame(*sizes, **options)


def draw(positions=WALL, indices=QUAD, matrix=CLIP, winding=None):
    return lambda: frame.draw(positions, indices, matrix, winding)


def boxes(given, matrix=CLIP):
    return lambda: frame.test_boxes(given, matrix)


def mesh(positions=WALL, indices=QUAD, matrix=CLIP):
    return lambda: frame.test_mesh(positions, indices, matrix)


ODD = memoryview(array.array("f", WALL + WALL))[::2]
CASES = [
    # sizes and options
    (ValueError, make(0, 32, near=0.1)), (ValueError, make(64, 2049, near=0.1)), (ValueError, make(-64, 32, near=0.1)),
    (ValueError, make(64 + (1 << 32), 32, near=0.1)), (TypeError, make(64.5, 32, near=0.1)),
    (ValueError, make(64, 32, near=0)), (ValueError, make(64, 32, near=float("nan"))),
    (ValueError, make(64, 32, near=1e300)), (TypeError, make(64, 32, near="far")), (TypeError, make(64, 32)),
    (ValueError, make(64, 32, near=0.1, winding=3)), (ValueError, make(64, 32, depths=(1, 1))),
    (TypeError, lambda: copy.copy(frame)), (TypeError, lambda: copy.deepcopy(frame)),
    (TypeError, lambda: pickle.dumps(frame)), (AttributeError, lambda: setattr(frame, "width", 4096)),
    (ValueError, make(64, 32, near=0.1, exact=True)), (ValueError, make(64, 32, near=0.1, reach=8)),
    # lengths
    (ValueError, draw(WALL[1:])), (ValueError, draw(indices=QUAD[1:])), (ValueError, draw(matrix=CLIP[1:])),
    (ValueError, draw(matrix=CLIP + [0])), (ValueError, draw(matrix=[])), (ValueError, draw(winding=3)),
    (ValueError, boxes(BOX + [0])), (ValueError, boxes(BOX[1:])), (ValueError, boxes(BOX, CLIP[1:])),
    (ValueError, mesh(WALL[1:])), (ValueError, mesh(indices=QUAD[1:])), (ValueError, mesh(matrix=CLIP[1:])),
    # kinds of numbers
    (TypeError, draw(array.array("d", WALL))), (TypeError, draw(array.array("i", map(int, WALL)))),
    (TypeError, draw(b"twelve bytes")), (TypeError, draw("text")), (TypeError, draw(None)), (TypeError, draw(ODD)),
    (TypeError, draw([[[1, 2, 3]]])), (TypeError, draw(indices=array.array("f", QUAD))),
    (TypeError, draw(indices=array.array("h", QUAD))), (TypeError, draw(indices=array.array("Q", QUAD))),
    (TypeError, draw(indices=[0, 1.5, 2])), (TypeError, draw(matrix=array.array("d", CLIP))),
    (TypeError, boxes(array.array("d", BOX))), (TypeError, boxes(7)), (TypeError, mesh(array.array("d", WALL))),
    (OverflowError, draw(indices=[0, 1, -1])), (OverflowError, draw(indices=[0, 1, 1 << 32])),
    # indices
    (IndexError, draw(indices=[0, 1, 4])), (IndexError, draw(indices=array.array("H", [0, 1, 65535]))),
    (IndexError, draw([])), (IndexError, draw(indices=[0, 1, 0xFFFFFFFF])),
]


def wrong_numpy():
    """The same by numpy's arrays; none where it isn't installed."""
    try:
        import numpy
    except ImportError:
        return []
    wall, quad = numpy.array(WALL, numpy.float32).reshape(4, 3), numpy.array(QUAD, numpy.uint32)
    for right in (wall, wall.tolist()):
        for numbers in (quad, quad.astype(numpy.uint16), quad.reshape(2, 3).tolist()):
            frame.draw(right, numbers, numpy.array(CLIP, numpy.float32).reshape(4, 4))
    wall.flags.writeable = False
    frame.draw(wall, quad, CLIP)
    frame.clear()
    return [(TypeError, draw(wall.astype(numpy.float64))), (TypeError, draw(wall.astype(">f4"))),
            (TypeError, draw(wall.T)), (TypeError, draw(wall[:, ::-1])), (TypeError, draw(wall.astype(numpy.float16))),
            (TypeError, draw(indices=quad.astype(numpy.int64))), (TypeError, draw(indices=quad.astype(numpy.int32))),
            (TypeError, draw(indices=quad.astype(numpy.uint8))), (TypeError, boxes(numpy.zeros((2, 6)))),
            (ValueError, boxes(numpy.zeros((2, 5), numpy.float32))), (ValueError, draw(wall[:, :2].copy())),
            (IndexError, draw(indices=quad + 2))]


def draw_and_test(shared, times):
    for _ in range(times):
        shared.draw(WALL, QUAD, CLIP)
        assert shared.test_boxes(BOX, CLIP)[0] == maskcull.OCCLUDED


def main():
    cases = CASES + wrong_numpy()
    for number, (wanted, call) in enumerate(cases):
        try:
            call()
        except wanted:
            continue
        raise SystemExit(f"case {number}: no {wanted.__name__}")
    assert frame.test_boxes([], CLIP) == b"" and frame.test_boxes(BOX, CLIP)[0] == maskcull.VISIBLE
    assert set(frame.picture()) == {0}, "something was drawn"
    frame.draw([], [], CLIP)
    frame.draw(WALL, QUAD, CLIP, maskcull.DROPS_CLOCKWISE)
    assert frame.test_boxes(BOX, CLIP)[0] == maskcull.VISIBLE, "a wall was drawn whose winding is dropped"
    frame.draw((ctypes.c_float * 12)(*WALL), (ctypes.c_uint16 * 6)(*QUAD), tuple(CLIP))
    assert frame.test_boxes(BOX + BOX, CLIP) == bytes(2 * [maskcull.OCCLUDED])
    assert frame.test_mesh([-1, 1, -8, 1, 1, -8, 0, -1, -8], [0, 1, 2], CLIP) == maskcull.OCCLUDED
    assert frame.test_mesh(WALL, [0, 1, 4], CLIP) == maskcull.VISIBLE
    threads = [threading.Thread(target=draw_and_test, args=(frame, 200)) for _ in range(4)]
    for thread in threads:
        thread.start()
    for thread in threads:
        thread.join()
    odd = maskcull.Frame(61, 31, near=0.1, by_rows=True, y_is_down=True, narrow=True)
    odd.draw(iter([WALL[at:at + 3] for at in (0, 3, 6, 9)]), QUAD, [CLIP[k % 4 * 4 + k // 4] for k in range(16)])
    assert len(odd.picture()) == 61 * 31 and min(odd.picture()) > 0
    print(f"{len(cases)} wrong calls are errors")


if __name__ == "__main__":
    main()
