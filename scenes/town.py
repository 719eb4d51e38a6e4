#!/usr/bin/env python3
"""A small town as a model: houses with rooms, furniture in them, trees and cars, and a walk with sixteen cameras.

usage: scenes/town.py OUT.glb [--houses 48]

One unit is a metre, y is up, and the streets run along x and z. Each house has four rooms: outer and inner walls of 20
centimetres with doors and windows, floors and a roof. Panes are of glass (alpha mode BLEND) and leaves are cut out of
their cards (MASK), so neither hides anything. Meshes are shared by the nodes that show them. The same town comes from
the same number of houses. `tools/glb2scene` makes a scene of it."""
import argparse
import json
import math
import pathlib
import random
import struct

WALL, HIGH, SIDE, PLOT, STREET = 0.2, 2.8, 10.0, 18.0, 10.0
OPAQUE, GLASS, LEAVES, BOTH_SIDES = 0, 1, 2, 3
MATERIALS = [
    {"name": "plaster"},
    {"name": "glass", "alphaMode": "BLEND"},
    {"name": "leaves", "alphaMode": "MASK", "doubleSided": True},
    {"name": "shell", "doubleSided": True},
]
FLOAT, SHORT, LONG, TRIANGLES = 5126, 5123, 5125, 4
# The faces of a block by its corners: bit 0, 1 and 2 of a corner's number take the greater x, y and z.
FACES = ((0, 4, 6, 2), (1, 3, 7, 5), (0, 1, 5, 4), (2, 6, 7, 3), (0, 2, 3, 1), (4, 5, 7, 6))


class Shape:
    """Points and triangles of one material, fronts counterclockwise."""

    def __init__(self):
        self.points, self.indices = [], []

    def face(self, *corners):
        first = len(self.points)
        self.points += corners
        self.indices += [first, first + 1, first + 2, first, first + 2, first + 3]

    def block(self, low, high):
        """The six sides of a block."""
        ends = (low, high)
        corners = [tuple(ends[corner >> axis & 1][axis] for axis in range(3)) for corner in range(8)]
        for face in FACES:
            self.face(*(corners[number] for number in face))

    def wall(self, along, at, span, openings=()):
        """A wall from the floor to the ceiling along an axis (0 or 2), with openings: begin, end, sill, lintel."""
        begin = span[0]
        for left, right, sill, lintel in sorted(openings):
            self.part(along, at, (begin, left), (0, HIGH))
            self.part(along, at, (left, right), (0, sill))
            self.part(along, at, (left, right), (lintel, HIGH))
            begin = right
        self.part(along, at, (begin, span[1]), (0, HIGH))

    def part(self, along, at, span, rise):
        if span[0] < span[1] and rise[0] < rise[1]:
            across = 2 - along
            low, high = [0.0, rise[0], 0.0], [0.0, rise[1], 0.0]
            low[along], high[along] = span
            low[across], high[across] = at - WALL / 2, at + WALL / 2
            self.block(tuple(low), tuple(high))


class Builder:
    """The tables of a .glb: meshes of shapes, and nodes."""

    def __init__(self):
        self.binary, self.views, self.accessors = bytearray(), [], []
        self.meshes, self.nodes, self.cameras = [], [], []

    def store(self, packed, **accessor):
        """A table of numbers, at a multiple of four bytes."""
        self.binary += bytes(-len(self.binary) % 4)
        self.views.append({"buffer": 0, "byteOffset": len(self.binary), "byteLength": len(packed)})
        self.accessors.append({"bufferView": len(self.views) - 1, **accessor})
        self.binary += packed
        return len(self.accessors) - 1

    def primitive(self, shape, material):
        columns = list(zip(*shape.points))
        packed = struct.pack(f"<{3 * len(shape.points)}f", *(part for point in shape.points for part in point))
        kind = {"componentType": FLOAT, "type": "VEC3", "count": len(shape.points)}
        ends = {"min": list(map(min, columns)), "max": list(map(max, columns))}
        points = self.store(packed, **kind, **ends)
        form, component = ("H", SHORT) if len(shape.points) < 65536 else ("I", LONG)
        packed = struct.pack(f"<{len(shape.indices)}{form}", *shape.indices)
        indices = self.store(packed, componentType=component, type="SCALAR", count=len(shape.indices))
        return {"attributes": {"POSITION": points}, "indices": indices, "material": material, "mode": TRIANGLES}

    def mesh(self, name, *shapes):
        """A mesh of shapes, each with its material."""
        self.meshes.append({"name": name, "primitives": [self.primitive(*shape) for shape in shapes]})
        return len(self.meshes) - 1

    def node(self, name, **members):
        self.nodes.append({"name": name, **members})
        return len(self.nodes) - 1

    def camera(self, name, eye, at):
        """A camera that looks from one point to another, 60 degrees high."""
        turn = math.atan2(eye[0] - at[0], eye[2] - at[2])
        tilt = math.atan2(at[1] - eye[1], math.hypot(at[0] - eye[0], at[2] - eye[2]))
        lens = {"yfov": math.radians(60), "aspectRatio": 16 / 9, "znear": 0.1}
        self.cameras.append({"name": name, "type": "perspective", "perspective": lens})
        a, b, c, d = math.cos(turn / 2), math.sin(turn / 2), math.cos(tilt / 2), math.sin(tilt / 2)
        members = {"translation": list(eye), "rotation": [a * d, b * c, -b * d, a * c]}
        return self.node(name, camera=len(self.cameras) - 1, **members)

    def glb(self, roots):
        """The file."""
        document = {
            "asset": {"version": "2.0", "generator": "scenes/town.py"},
            "scene": 0,
            "scenes": [{"nodes": roots}],
            "nodes": self.nodes,
            "meshes": self.meshes,
            "cameras": self.cameras,
            "materials": MATERIALS,
            "accessors": self.accessors,
            "bufferViews": self.views,
            "buffers": [{"byteLength": len(self.binary)}],
        }
        text = json.dumps(document, separators=(",", ":")).encode()
        text += b" " * (-len(text) % 4)
        binary = bytes(self.binary) + bytes(-len(self.binary) % 4)
        chunks = struct.pack("<2I", len(text), 0x4E4F534A) + text + struct.pack("<2I", len(binary), 0x004E4942) + binary
        return struct.pack("<4s2I", b"glTF", 2, 12 + len(chunks)) + chunks


def block(low, high):
    shape = Shape()
    shape.block(low, high)
    return shape


def joined(*blocks):
    shape = Shape()
    for low, high in blocks:
        shape.block(low, high)
    return shape


def legs(width, depth, high):
    """Four legs of 6 centimetres."""
    ends = ((x, z) for x in (0, width - 0.06) for z in (0, depth - 0.06))
    return [((x, 0, z), (x + 0.06, high, z + 0.06)) for x, z in ends]


def house_shapes():
    """The walls of a house with four rooms, from its corner on; its panes; and its floor and roof."""
    door, window = (0.0, 2.1), (0.9, 2.1)
    walls, panes, half = Shape(), Shape(), SIDE / 2
    for axis in (0, 2):
        for at, has_door in ((0.0, axis == 0), (SIDE, False)):
            holes = [(1.5, 3.0, *window), (7.0, 8.5, *window)] + ([(4.0, 4.9, *door)] if has_door else [])
            walls.wall(axis, at, (0, SIDE), holes)
            for begin, end, sill, lintel in holes[:2]:
                panes.part(axis, at, (begin, end), (sill, lintel))
        walls.wall(axis, half, (WALL, SIDE - WALL), [(1.2, 2.1, *door), (7.6, 8.5, *door)])
    slabs = joined(((0, -0.2, 0), (SIDE, 0, SIDE)), ((-0.4, HIGH, -0.4), (SIDE + 0.4, HIGH + 0.2, SIDE + 0.4)))
    rise = HIGH + 0.2
    roof = [(-0.4, rise, -0.4), (10.4, rise, -0.4), (10.4, rise, 10.4), (-0.4, rise, 10.4)]
    ridge = [(-0.4, rise + 2.5, half), (SIDE + 0.4, rise + 2.5, half)]
    slabs.face(roof[3], roof[2], ridge[1], ridge[0])
    slabs.face(roof[1], roof[0], ridge[0], ridge[1])
    slabs.face(roof[0], roof[3], ridge[0], ridge[0])
    slabs.face(roof[2], roof[1], ridge[1], ridge[1])
    return walls, panes, slabs


def furniture(builder):
    """The meshes that stand in rooms, by name, each with its size."""
    seat = [((0, 0.45, 0), (0.45, 0.5, 0.45)), ((0, 0.5, 0), (0.45, 1, 0.05)), *legs(0.45, 0.45, 0.45)]
    plans = {
        "table": (1.4, 0.8, [((0, 0.7, 0), (1.4, 0.75, 0.8)), *legs(1.4, 0.8, 0.7)]),
        "chair": (0.45, 0.45, seat),
        "bed": (2.0, 1.4, [((0, 0.2, 0), (2, 0.5, 1.4)), ((0, 0.5, 0), (0.1, 1, 1.4))]),
        "cupboard": (1.2, 0.6, [((0, 0, 0), (1.2, 2, 0.6))]),
        "shelf": (0.9, 0.3, [((0, 0.4 * k, 0), (0.9, 0.4 * k + 0.04, 0.3)) for k in range(5)]),
        "lamp": (0.3, 0.3, [((0.12, 0, 0.12), (0.18, 1.4, 0.18)), ((0, 1.4, 0), (0.3, 1.7, 0.3))]),
        "box": (0.5, 0.4, [((0, 0, 0), (0.5, 0.35, 0.4))]),
    }
    made = {}
    for name, (width, depth, blocks) in plans.items():
        made[name] = (builder.mesh(name, (joined(*blocks), OPAQUE)), width, depth)
    return made


def tree_mesh(builder):
    """A trunk, and two cards of leaves across one another."""
    leaves = Shape()
    leaves.face((-1.5, 1.5, 0), (1.5, 1.5, 0), (1.5, 5, 0), (-1.5, 5, 0))
    leaves.face((0, 1.5, -1.5), (0, 1.5, 1.5), (0, 5, 1.5), (0, 5, -1.5))
    return builder.mesh("tree", (block((-0.15, 0, -0.15), (0.15, 2, 0.15)), OPAQUE), (leaves, LEAVES))


class Town:
    """Streets along x with houses on both sides."""

    def __init__(self, houses):
        self.builder, self.dice = Builder(), random.Random(houses)
        walls, panes, slabs = house_shapes()
        self.walls = self.builder.mesh("walls", (walls, OPAQUE))
        self.panes = self.builder.mesh("panes", (panes, GLASS))
        self.slabs = self.builder.mesh("roof and floor", (slabs, OPAQUE))
        self.things, self.tree = furniture(self.builder), tree_mesh(self.builder)
        car = joined(((-2, 0.3, -0.8), (2, 0.9, 0.8)), ((-1, 0.9, -0.7), (1.2, 1.5, 0.7)))
        self.car = self.builder.mesh("car", (car, OPAQUE))
        self.roots, self.columns = [], max(2, math.ceil(math.sqrt(houses / 2)) * 2 // 2)
        self.rows = math.ceil(houses / self.columns)
        for number in range(houses):
            self.add_house(number, number % self.columns, number // self.columns)
        self.add_ground()
        self.add_walk()

    def corner(self, column, row):
        """The corner of a plot. Two rows of plots lie between two streets."""
        return column * PLOT, row * PLOT + (row + 1) // 2 * STREET

    def add_house(self, number, column, row):
        """A house; those south of their street are turned about, so that all doors are at a street."""
        x, z = self.corner(column, row)
        children = [self.builder.node(f"{part} of house {number}", mesh=mesh) for part, mesh in
                    (("walls", self.walls), ("panes", self.panes), ("roof and floor", self.slabs))]
        for room in range(4):
            children += self.room(number, room)
        is_turned = row % 2 == 0
        offset = self.dice.uniform(1, PLOT - SIDE - 1)
        place = [x + offset + (SIDE if is_turned else 0), 0.0, z + 2 + (SIDE if is_turned else 0)]
        turn = {"rotation": [0, 1, 0, 0]} if is_turned else {}
        self.roots.append(self.builder.node(f"house {number}", translation=place, children=children, **turn))
        self.roots.append(self.builder.node(f"tree {number}", mesh=self.tree, translation=[x + 0.5, 0, z + 14],
                                            scale=[self.dice.uniform(0.7, 1.3)] * 3))
        if number % 3 == 0:
            ahead = z + (PLOT + 1.5 if is_turned else -1.5)
            self.roots.append(self.builder.node(f"car {number}", mesh=self.car, translation=[x + 6, 0, ahead]))

    def room(self, house, room):
        """Four or five things along the walls of a room."""
        names = self.dice.sample(sorted(self.things), self.dice.choice((4, 5)))
        x0, z0 = 0.3 + room % 2 * SIDE / 2, 0.3 + room // 2 * SIDE / 2
        nodes = []
        for place, name in enumerate(names):
            mesh, width, depth = self.things[name]
            x = x0 + (place % 3) * 1.5 * (1 if width < 1.5 else 0.8)
            z = z0 + (0 if place < 3 else 4.2 - depth)
            nodes.append(self.builder.node(f"{name} in room {room} of house {house}", mesh=mesh, translation=[x, 0, z]))
        return nodes

    def size(self):
        x, z = self.corner(self.columns - 1, self.rows - 1)
        return x + PLOT, z + PLOT

    def add_ground(self):
        wide, deep = self.size()
        ground = Shape()
        ground.face((-20, -0.2, -20), (-20, -0.2, deep + 20), (wide + 20, -0.2, deep + 20), (wide + 20, -0.2, -20))
        self.roots.append(self.builder.node("ground", mesh=self.builder.mesh("ground", (ground, OPAQUE))))

    def add_walk(self):
        """Down the first street, into a house, and up for a look over the roofs."""
        street, (wide, deep) = PLOT + STREET / 2, self.size()
        places = [((4 + 6 * k, 1.7, street + math.sin(k)), (60, 1.2, street)) for k in range(7)]
        places += [((48 - 3 * k, 1.7, street + k - 2), (0, 1.5, street - 14 + 6 * k)) for k in range(3)]
        # the corner of the first house at its street, about which it is turned
        door = self.builder.nodes[self.roots[0]]["translation"]
        places.append(((door[0] - 4.4, 1.7, door[2] - 1), (door[0] - 6, 1.0, door[2] - 9)))
        places.append(((door[0] - 7, 1.6, door[2] - 7), (door[0] - 2, 1.2, door[2] + 4)))
        places.append(((door[0] - 0.75, 1.6, door[2] - 4.8), (door[0] - 4.5, 1.2, door[2])))
        middle = (wide / 2, 0, deep / 2)
        places += [((-12, 7, -8), middle), ((wide + 10, 16, deep / 2), middle), ((wide / 2, 30, deep + 15), middle)]
        for number, (eye, at) in enumerate(places):
            self.roots.append(self.builder.camera(f"step {number}", eye, at))


def main():
    parser = argparse.ArgumentParser(description=__doc__, formatter_class=argparse.RawDescriptionHelpFormatter)
    parser.add_argument("out", metavar="OUT.glb")
    parser.add_argument("--houses", type=int, default=48)
    words = parser.parse_args()
    town = Town(max(words.houses, 4))
    pathlib.Path(words.out).write_bytes(town.builder.glb(town.roots))


if __name__ == "__main__":
    main()
