"""A plain .glb of triangles in an order."""
import json
import struct

import numpy

FLOAT, UNSIGNED, TRIANGLES = 5126, 5125, 4


def glb_of(corners, is_double, name):
    """The bytes of a model of triangles, which are stored from a point in their middle on, and drawn in their order.

    Runs of triangles with one side or two take turns, each a primitive."""
    middle = numpy.round(corners.reshape(-1, 3).mean(axis=0)) if len(corners) else numpy.zeros(3)
    stored = (corners - middle).astype("<f4").reshape(-1, 3)
    places, numbers = numpy.unique(stored, axis=0, return_inverse=True)
    numbers = numbers.reshape(-1).astype("<u4")
    ends = [0] + [k for k in range(1, len(is_double)) if is_double[k] != is_double[k - 1]] + [len(is_double)]
    views = [{"buffer": 0, "byteOffset": 0, "byteLength": places.nbytes, "target": 34962},
             {"buffer": 0, "byteOffset": places.nbytes, "byteLength": numbers.nbytes, "target": 34963}]
    accessors = [{"bufferView": 0, "componentType": FLOAT, "type": "VEC3", "count": len(places),
                  "min": places.min(axis=0).tolist(), "max": places.max(axis=0).tolist()}]
    primitives = []
    for begin, end in zip(ends, ends[1:]):
        primitives.append({"attributes": {"POSITION": 0}, "indices": len(accessors), "mode": TRIANGLES,
                           "material": int(is_double[begin])})
        accessors.append({"bufferView": 1, "byteOffset": 12 * begin, "componentType": UNSIGNED, "type": "SCALAR",
                          "count": 3 * (end - begin)})
    document = {
        "asset": {"version": "2.0", "generator": "maskcull tools/occluders"},
        "scene": 0,
        "scenes": [{"nodes": [0]}],
        "nodes": [{"name": name, "mesh": 0, "translation": middle.tolist()}],
        "meshes": [{"name": name, "primitives": primitives}],
        "materials": [{"name": "occluder"}, {"name": "occluder from both sides", "doubleSided": True}],
        "accessors": accessors,
        "bufferViews": views,
        "buffers": [{"byteLength": places.nbytes + numbers.nbytes}],
    }
    return packed(document, places.tobytes() + numbers.tobytes())


def packed(document, binary):
    text = json.dumps(document, separators=(",", ":")).encode()
    text += b" " * (-len(text) % 4)
    chunks = struct.pack("<2I", len(text), 0x4E4F534A) + text + struct.pack("<2I", len(binary), 0x004E4942) + binary
    return struct.pack("<4s2I", b"glTF", 2, 12 + len(chunks)) + chunks
