# SPDX-License-Identifier: MIT OR Apache-2.0
"""maskcull for Python: the calls of maskcull_frame.h in libmaskcull.so.0, by ctypes. numpy isn't needed.

    frame = maskcull.Frame(1280, 720, near=0.125)
    frame.clear()                                   # each frame
    frame.draw(positions, indices, to_clip)         # x, y, z a vertex; three numbers a triangle; 16 of a matrix
    verdicts = frame.test_boxes(boxes, to_clip)     # six floats a box; a byte each: VISIBLE, OCCLUDED or OUTSIDE

Numbers are lists or tuples of them, or arrays of numpy, array and ctypes in C order, with float32, or uint16 or uint32
for indices. Such arrays aren't copied, if they can be written to. What has another length or kind, or an index past the
last vertex, raises an error. Threads may use one frame: a call waits until the one before it has ended.

MASKCULL_LIBRARY in the environment names the library's file, where the loader doesn't find it."""
import array
import ctypes
import numbers
import operator
import os
import threading

VISIBLE, OCCLUDED, OUTSIDE = 16, 17, 18
KEEPS_BOTH, DROPS_CLOCKWISE, DROPS_COUNTERCLOCKWISE = 0, 1, 2
_OWN_WINDING = 3
_BAD_INDEX, _NO_MEMORY, _REASON_NO_MEMORY = 3, 6, 10
_FILES = {"nt": "maskcull.dll"}
# What array and memoryview call numbers, by their bytes.
_FLOATS, _WHOLES = {"f": 4}, {kind: array.array(kind).itemsize for kind in "HIL"}
_WHOLES = {kind: size for kind, size in _WHOLES.items() if size in (2, 4)}
_LONG = next(kind for kind, size in _WHOLES.items() if size == 4)


class Options(ctypes.Structure):
    """maskcull_frame_options, as Frame fills it in."""
    _fields_ = [*((name, ctypes.c_uint32) for name in ("size", "exact", "reach", "share", "winding", "by_rows",
                                                       "y_is_down", "narrow", "orthographic")),
                ("at_near", ctypes.c_float), ("at_far", ctypes.c_float)]


def _load(path):
    library = ctypes.CDLL(path)
    size, pointer, u32 = ctypes.c_size_t, ctypes.c_void_p, ctypes.c_uint32
    mesh = [pointer, pointer, size, size, pointer, size, size]
    calls = {
        "version": (u32, []),
        "make": (pointer, [u32, u32, ctypes.c_float, ctypes.POINTER(Options), ctypes.POINTER(u32)]),
        "text": (ctypes.c_char_p, [u32]),
        "free": (None, [pointer]),
        "clear": (None, [pointer]),
        "draw": (u32, [pointer, *mesh, u32]),
        "test_boxes": (size, [pointer, pointer, pointer, size, pointer]),
        "test_mesh": (u32, [pointer, *mesh]),
        "nearness": (u32, [pointer, pointer, size, size]),
    }
    for name, (result, taken) in calls.items():
        call = getattr(library, f"maskcull_frame_{name}")
        call.restype, call.argtypes = result, taken
    if library.maskcull_frame_version() // 100 != 1:
        raise ImportError(f"{path} has another version than 0.1")
    return library


_library = _load(os.environ.get("MASKCULL_LIBRARY", _FILES.get(os.name, "libmaskcull.so.0")))


class _Numbers:
    """Where some numbers lie as long as this is held: `count` groups of `each` numbers of `size` bytes at `place`."""
    __slots__ = ("place", "count", "size", "held")

    def __init__(self, what, given, kinds, each, groups=None):
        view, self.size = _view_of(what, given, kinds)
        bytes_ = view.nbytes
        self.count, rest = divmod(bytes_, each * self.size)
        if rest or groups not in (None, self.count):
            wanted = f"{each * groups}" if groups else f"a multiple of {each}"
            raise ValueError(f"{what}: {bytes_ // self.size} numbers are given, and {wanted} are wanted")
        if bytes_ == 0:
            self.held = ctypes.c_uint32(0)
        else:
            # of the first byte; as long as it is there the array can't be made shorter
            self.held = ctypes.c_char.from_buffer(bytearray(view.tobytes()) if view.readonly else view)
        self.place = ctypes.addressof(self.held)


def _view_of(what, given, kinds):
    """The numbers as a view of one of some kinds, and their size; what isn't an array is copied into one."""
    try:
        view = memoryview(given)
    except TypeError:
        copied = memoryview(_copied(what, given, kinds))
        return copied, copied.itemsize
    form = view.format.lstrip("@=<")
    if kinds.get(form) != view.itemsize:
        raise TypeError(f"{what}: the array's numbers are of kind '{view.format}', and not {' or '.join(kinds)}")
    if not view.c_contiguous:
        raise TypeError(f"{what}: the array's numbers don't follow one another; numpy.ascontiguousarray copies it")
    return view, view.itemsize


def _copied(what, given, kinds):
    kind = "f" if kinds is _FLOATS else _LONG
    try:
        rows = list(given)
        if rows and not isinstance(rows[0], numbers.Number):
            rows = [number for row in rows for number in row]
        return array.array(kind, rows)
    except TypeError as error:
        raise TypeError(f"{what}: {error}") from None


def _matrix(given):
    return _Numbers("the matrix", given, _FLOATS, 16, 1)


class Frame:
    """An empty frame for a window. `near` is the near distance; an orthographic view takes `depths` in its place, what
    z / w is at the near plane and at the far one, as (-1, 1)."""

    def __init__(self, width, height, near=None, *, winding=KEEPS_BOTH, by_rows=False, y_is_down=False, narrow=False,
                 depths=None, exact=False, reach=0, share=0):
        self._lock, self._frame = threading.Lock(), None
        at_near, at_far = (0, 0) if depths is None else depths
        if near is None and depths is None:
            raise TypeError("a frame has a near distance, or depths")
        near = 0 if near is None else near
        if not isinstance(near, numbers.Real):
            raise TypeError("the near distance is no number")
        width, height, winding, reach, share = map(_whole, (width, height, winding, reach, share))
        options = Options(ctypes.sizeof(Options), bool(exact), reach, share, winding, bool(by_rows), bool(y_is_down),
                          bool(narrow), depths is not None, at_near, at_far)
        reason = ctypes.c_uint32()
        frame = _library.maskcull_frame_make(width, height, near, ctypes.byref(options), ctypes.byref(reason))
        if not frame:
            error = MemoryError if reason.value == _REASON_NO_MEMORY else ValueError
            raise error(_library.maskcull_frame_text(reason.value).decode())
        self._frame, self._size = frame, (width, height)

    def __del__(self):
        if getattr(self, "_frame", None):
            _library.maskcull_frame_free(self._frame)
            self._frame = None

    def __reduce__(self):
        raise TypeError("a frame can't be copied: it has memory of its own")

    @property
    def width(self):
        return self._size[0]

    @property
    def height(self):
        return self._size[1]

    def clear(self):
        with self._lock:
            _library.maskcull_frame_clear(self._frame)

    def draw(self, positions, indices, model_to_clip, winding=None):
        """Draws a mesh, with a winding of its own where one is given."""
        matrix, places, corners = _matrix(model_to_clip), *_mesh(positions, indices)
        if winding not in (None, KEEPS_BOTH, DROPS_CLOCKWISE, DROPS_COUNTERCLOCKWISE):
            raise ValueError("there is no such winding")
        with self._lock:
            status = _library.maskcull_frame_draw(self._frame, matrix.place, places.place, 12, places.count,
                                                  corners.place, corners.size, 3 * corners.count,
                                                  _OWN_WINDING if winding is None else winding)
        if status == _BAD_INDEX:
            raise IndexError("an index is past the last vertex")
        _raise(status)

    def test_boxes(self, boxes, world_to_clip):
        """A byte for each box, which is six floats, its low corner and its high one."""
        matrix, given = _matrix(world_to_clip), _Numbers("boxes", boxes, _FLOATS, 6)
        verdicts = bytearray(given.count)
        if given.count:
            into = ctypes.c_char.from_buffer(verdicts)
            with self._lock:
                _library.maskcull_frame_test_boxes(self._frame, matrix.place, given.place, given.count,
                                                   ctypes.addressof(into))
        return verdicts

    def test_mesh(self, positions, indices, model_to_clip):
        """The verdict of a mesh: VISIBLE too where an index is past the last vertex."""
        matrix, places, corners = _matrix(model_to_clip), *_mesh(positions, indices)
        with self._lock:
            return _library.maskcull_frame_test_mesh(self._frame, matrix.place, places.place, 12, places.count,
                                                     corners.place, corners.size, 3 * corners.count)

    def picture(self):
        """How near each pixel is at least, row by row from above, as an array of kind H."""
        width, height = self._size
        out = array.array("H", bytes(2 * width * height))
        with self._lock:
            _raise(_library.maskcull_frame_nearness(self._frame, out.buffer_info()[0], len(out), width))
        return out


def _whole(number):
    """A number that C takes with 32 bits: others would be cut."""
    if not 0 <= operator.index(number) < 1 << 32:
        raise ValueError(f"{number} is below 0, or too large")
    return operator.index(number)


def _mesh(positions, indices):
    return _Numbers("positions", positions, _FLOATS, 3), _Numbers("indices", indices, _WHOLES, 3)


def _raise(status):
    if status:
        raise MemoryError("out of memory") if status == _NO_MEMORY else ValueError(f"maskcull's status {status}")
