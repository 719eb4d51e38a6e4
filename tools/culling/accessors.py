"""The numbers of accessors: plain, interleaved, normalized, sparse."""
import math
import struct

from .document import ModelError

# The letter of a component in `struct`, and what a normalized one is divided by.
COMPONENTS = {
    5120: ("b", 127),
    5121: ("B", 255),
    5122: ("h", 32767),
    5123: ("H", 65535),
    5125: ("I", 0),
    5126: ("f", 0),
}
WIDTHS = {"SCALAR": 1, "VEC2": 2, "VEC3": 3, "VEC4": 4, "MAT4": 16}
INDEX_COMPONENTS = (5121, 5123, 5125)
MOST = 1 << 26


def read_accessor(document, number, owner, kind, components=None):
    """The elements of an accessor of a kind, each a tuple of numbers."""
    accessor = document.pick("accessors", "accessor", number, owner)
    component, count = accessor.whole("componentType"), accessor.whole("count")
    if accessor.text("type") != kind or component not in (components or COMPONENTS):
        raise ModelError(f"{accessor.label} isn't what {owner.label} asks for.")
    if count > MOST:
        raise ModelError(f"{accessor.label} has {count} elements, and at most {MOST} are read.")
    letter, divisor = COMPONENTS[component]
    form = f"{WIDTHS[kind]}{letter}"
    if accessor.has("bufferView"):
        elements = viewed(document, accessor, form, count)
    else:
        elements = [(0,) * WIDTHS[kind]] * count
    sparse = accessor.entry("sparse", None)
    if sparse:
        elements = replaced(document, sparse, elements, form)
    if letter == "f" and not math.isfinite(sum(map(sum, elements))):
        raise ModelError(f"{accessor.label} has a number that isn't finite.")
    if accessor.flag("normalized") and divisor:
        return [tuple(max(part / divisor, -1.0) for part in element) for element in elements]
    return elements


def read_scalars(document, number, owner, components):
    """The elements of a scalar accessor."""
    return [value for value, in read_accessor(document, number, owner, "SCALAR", components)]


def bytes_of_view(document, owner):
    """The bytes of the view that an owner names, from its own offset on, and the view's stride or 0."""
    view = document.pick("bufferViews", "bufferView", owner.whole("bufferView"), owner)
    if view.extension("EXT_meshopt_compression") or view.extension("KHR_meshopt_compression"):
        raise ModelError(f"{view.label} is compressed by meshopt; unpack it first, as by gltfpack -noq.")
    stored = document.buffer(view.whole("buffer"), view)
    begin, length = view.whole("byteOffset", 0), view.whole("byteLength")
    if begin + length > len(stored):
        raise ModelError(f"{view.label} reaches to byte {begin + length}, and its buffer has {len(stored)}.")
    offset = owner.whole("byteOffset", 0)
    if offset > length:
        raise ModelError(f"{owner.label} begins at byte {offset}, and {view.label} has {length}.")
    return stored[begin + offset : begin + length], view.whole("byteStride", 0)


def viewed(document, owner, form, count):
    """So many elements of a form in the view that an owner names."""
    if count == 0:
        return []
    stored, stride = bytes_of_view(document, owner)
    size = struct.calcsize(f"<{form}")
    stride = stride or size
    needed = (count - 1) * stride + size
    if stride < size or needed > len(stored):
        raise ModelError(f"{owner.label} needs {needed} bytes of its view, and {len(stored)} are there.")
    # the last element may end with its own bytes, and not with the stride's
    spaced = stored[: needed - size]
    elements = list(struct.iter_unpack(f"<{form}{stride - size}x", spaced)) if spaced else []
    return elements + [struct.unpack_from(f"<{form}", stored, needed - size)]


def replaced(document, sparse, elements, form):
    """Elements with those that a sparse accessor exchanges."""
    count, places, values = sparse.whole("count"), sparse.entry("indices"), sparse.entry("values")
    component = places.whole("componentType")
    if component not in INDEX_COMPONENTS:
        raise ModelError(f"{places.label} have a componentType that isn't for indices.")
    if count > len(elements):
        raise ModelError(f"{sparse.label} exchanges {count} of {len(elements)} elements.")
    elements = list(elements)
    numbers = viewed(document, places, f"1{COMPONENTS[component][0]}", count)
    for (number,), value in zip(numbers, viewed(document, values, form, count)):
        if number >= len(elements):
            raise ModelError(f"{sparse.label} exchanges element {number} of {len(elements)}.")
        elements[number] = value
    return elements
