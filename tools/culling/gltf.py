"""glTF 2.0 models: each node with a mesh as a part in the coordinates of the whole model, and the cameras."""
import dataclasses

from . import transforms
from .accessors import INDEX_COMPONENTS, read_accessor, read_scalars
from .document import MOST_REAL, Document, ModelError
from .progress import watched

POINTS, TRIANGLES, STRIP, FAN = 0, 4, 5, 6
JOINT_COMPONENTS = (5121, 5123)
# What a camera's numbers may be: an angle, a distance in metres, a ratio.
LEAST_OF_LENS, MOST_NEAR = 1e-9, 1e9
# What a model may require and still has its shapes where they are without it.
HARMLESS = ("KHR_materials_", "KHR_texture_", "KHR_lights_", "EXT_texture_", "EXT_lights_", "KHR_xmp", "KHR_technique")
KNOWN = ("KHR_mesh_quantization", "EXT_mesh_gpu_instancing")
COMPRESSED = {
    "KHR_draco_mesh_compression": "Draco",
    "EXT_meshopt_compression": "meshopt",
    "KHR_meshopt_compression": "meshopt",
}


@dataclasses.dataclass(frozen=True)
class Material:
    """What of a material matters to hiding: whether it can be seen through, and whether both sides are drawn."""

    name: str = ""
    is_clear: bool = False
    is_double_sided: bool = False


@dataclasses.dataclass
class Surface:
    """Triangles by the numbers of their points. A front runs counterclockwise."""

    points: list
    triangles: list
    material: Material


@dataclasses.dataclass
class Part:
    """A node with a mesh. A loose one has points or lines beside its triangles, a moving one is animated.
    `place` is the map from the mesh into the model, but for a skin's."""

    name: str
    mesh: str
    surfaces: list
    is_loose: bool
    is_moving: bool = False
    place: tuple = transforms.IDENTITY


@dataclasses.dataclass
class Eye:
    """A camera of the model: its map into the model, the height of its view in radians, its near distance, and how many
    times as wide as high its view is, or None where it doesn't say."""

    name: str
    place: tuple
    height: float
    near: float
    ratio: float


class Model:
    """The parts of a model's scene, its cameras, and notes on what was left out."""

    def __init__(self, path):
        self.document = Document(path)
        self.parts, self.eyes, self.notes = [], [], []
        self.has_flat_eyes = False
        self.primitives, self.places, self.animated = {}, {}, animated_nodes(self.document)
        test_extensions(self.document.root)
        self.materials = [material_of(entry) for entry in self.document.table("materials", "material")]
        self.walk()

    def walk(self):
        """Goes through the nodes of the scene, each below its parent."""
        document, seen = self.document, set()
        waiting = [(number, owner, transforms.IDENTITY) for number, owner in reversed(first_nodes(document))]
        order = []
        while waiting:
            number, owner, above = waiting.pop()
            node = document.pick("nodes", "node", number, owner)
            if number in seen:
                raise ModelError(f"{node.label} has two parents, or is below itself.")
            seen.add(number)
            self.places[number] = transforms.product(above, place_of(node))
            if not all(abs(part) < MOST_REAL for part in self.places[number]):
                raise ModelError(f"{node.label} is moved or scaled past all bounds.")
            if number in self.animated:
                self.animated.update(node.wholes("children"))
            order.append((number, node))
            waiting += [(child, node, self.places[number]) for child in reversed(node.wholes("children"))]
        for number, node in watched(order, "nodes of the model"):
            self.take_node(number, node, self.places[number])

    def take_node(self, number, node, place):
        first = len(self.parts)
        if node.has("mesh"):
            mesh = self.document.pick("meshes", "mesh", node.whole("mesh"), node)
            for name, at in self.instances(node, place, node.text("name", "") or mesh.text("name", "") or node.label):
                self.take_mesh(name, node, mesh, at)
        for part in self.parts[first:]:
            part.is_moving |= number in self.animated or node.has("skin")
        if node.has("camera"):
            self.take_camera(node, place)

    def instances(self, node, place, name):
        """The node itself, or where it is drawn many times each of these: a name and a map."""
        instancing = node.extension("EXT_mesh_gpu_instancing")
        if not instancing:
            return [(name, place)]
        attributes, columns = instancing.entry("attributes"), {}
        for key, kind in (("TRANSLATION", "VEC3"), ("ROTATION", "VEC4"), ("SCALE", "VEC3")):
            if attributes.has(key):
                columns[key] = read_accessor(self.document, attributes.whole(key), attributes, kind)
        count = min(map(len, columns.values()), default=0)
        at = lambda key, k, default: columns[key][k] if key in columns else default  # noqa: E731
        parts = [
            (at("TRANSLATION", k, (0, 0, 0)), at("ROTATION", k, (0, 0, 0, 1)), at("SCALE", k, (1, 1, 1)))
            for k in range(count)
        ]
        return [
            (f"{name} {k}", transforms.product(place, transforms.of_parts(*part))) for k, part in enumerate(parts)
        ]

    def take_mesh(self, name, node, mesh, place):
        primitives = mesh.entries("primitives", "primitive")
        part = Part(name, mesh.text("name", ""), [], False, place=place)
        for primitive in primitives:
            primitive.label += f" of {mesh.label}"
            mode = primitive.whole("mode", TRIANGLES)
            if mode > FAN:
                raise ModelError(f"{primitive.label} has the mode {mode}.")
            part.is_loose |= mode < TRIANGLES
            part.is_moving |= bool(primitive.entries("targets", "target"))
            points, triangles = self.shape_of(mesh, primitive, mode, node)
            if node.has("skin") and primitive.entry("attributes").has("JOINTS_0"):
                points, mirrored = self.at_rest(node, primitive, points), False
            else:
                points, mirrored = transforms.moved(points, place), transforms.is_mirror(place)
            if mirrored:
                triangles = [(a, c, b) for a, b, c in triangles]
            if points:
                part.surfaces.append(Surface(points, triangles, self.material_for(primitive)))
        if part.surfaces:
            self.parts.append(part)
        else:
            self.notes.append(f"{name}: without a point, so left out")

    def material_for(self, primitive):
        if not primitive.has("material"):
            return Material()
        number = primitive.whole("material")
        self.document.pick("materials", "material", number, primitive)
        return self.materials[number]

    def shape_of(self, mesh, primitive, mode, node):
        """The points and triangles of a primitive before its node moves it, kept for the next node with the mesh."""
        key = (primitive.label, node.label if node.has("weights") else None)
        if key not in self.primitives:
            points = self.points_of(mesh, primitive, node)
            self.primitives[key] = (points, self.triangles_of(primitive, mode, len(points)))
        return self.primitives[key]

    def points_of(self, mesh, primitive, node):
        """The positions, with what its morph targets add at rest."""
        if primitive.extension("KHR_draco_mesh_compression") and not self.has_plain_points(primitive):
            raise_compressed(primitive.label, "Draco")
        attributes = primitive.entry("attributes")
        if not attributes.has("POSITION"):
            return []
        points = read_accessor(self.document, attributes.whole("POSITION"), attributes, "VEC3")
        weights = node.reals("weights", None, mesh.reals("weights", None, ()))
        for weight, target in zip(weights, primitive.entries("targets", "target")):
            if weight and target.has("POSITION"):
                steps = read_accessor(self.document, target.whole("POSITION"), target, "VEC3")
                test_counts(target, points, steps)
                points = [tuple(p + weight * s for p, s in zip(*pair)) for pair in zip(points, steps)]
        return points

    def has_plain_points(self, primitive):
        """Whether a compressed primitive has its positions beside it too."""
        attributes = primitive.entry("attributes")
        number = attributes.whole("POSITION", 0)
        return self.document.pick("accessors", "accessor", number, primitive).has("bufferView")

    def triangles_of(self, primitive, mode, count):
        if primitive.has("indices"):
            numbers = read_scalars(self.document, primitive.whole("indices"), primitive, INDEX_COMPONENTS)
            if numbers and max(numbers) >= count:
                raise ModelError(f"{primitive.label} has the index {max(numbers)}, and there are {count} points.")
        else:
            numbers = range(count)
        if mode < TRIANGLES:
            return []
        if mode == TRIANGLES and len(numbers) % 3:
            rest = len(numbers) % 3
            self.notes.append(f"{primitive.label}: {len(numbers)} indices, of which the last {rest} are left out")
        return triangles_by(mode, numbers)

    def at_rest(self, node, primitive, points):
        """The points of a skinned primitive, moved by its joints where these stand."""
        document, attributes = self.document, primitive.entry("attributes")
        skin = document.pick("skins", "skin", node.whole("skin"), node)
        joints = read_accessor(document, attributes.whole("JOINTS_0"), attributes, "VEC4", JOINT_COMPONENTS)
        weights = read_accessor(document, attributes.whole("WEIGHTS_0"), attributes, "VEC4")
        test_counts(attributes, points, joints, weights)
        maps = self.joint_maps(skin)
        if joints and max(map(max, joints)) >= len(maps):
            raise ModelError(f"{primitive.label} names joint {max(map(max, joints))}, and there are {len(maps)}.")
        return [
            skinned(point, [(w, maps[j]) for j, w in zip(*pair) if w]) for point, *pair in zip(points, joints, weights)
        ]

    def joint_maps(self, skin):
        """The map of each joint of a skin, from the mesh at binding to the model at rest."""
        joints = skin.wholes("joints")
        if skin.has("inverseBindMatrices"):
            binds = read_accessor(self.document, skin.whole("inverseBindMatrices"), skin, "MAT4")
            binds = [transforms.of_columns(bind) for bind in binds]
        else:
            binds = [transforms.IDENTITY] * len(joints)
        missing = [joint for joint in joints if joint not in self.places]
        if missing or len(binds) < len(joints):
            raise ModelError(f"{skin.label} has joints that aren't in the scene, or too few matrices.")
        return [transforms.product(self.places[joint], bind) for joint, bind in zip(joints, binds)]

    def take_camera(self, node, place):
        camera = self.document.pick("cameras", "camera", node.whole("camera"), node)
        name = node.text("name", "") or camera.text("name", "") or camera.label
        if camera.text("type") != "perspective":
            self.has_flat_eyes = True
            self.notes.append(f"{name}: no perspective camera, so left out")
            return
        lens = camera.entry("perspective")
        height, near, ratio = lens.real("yfov"), lens.real("znear"), lens.real("aspectRatio", None)
        for member, number, most in (("yfov", height, 3.1), ("znear", near, MOST_NEAR), ("aspectRatio", ratio, 1e4)):
            if number is not None and not LEAST_OF_LENS <= number < most:
                raise ModelError(f"{camera.label} has a {member} of {number}.")
        self.eyes.append(Eye(name, place, height, near, ratio))


def test_extensions(root):
    """Refuses what a model requires and isn't known here."""
    for name in root.texts("extensionsRequired"):
        if name in COMPRESSED:
            raise_compressed("The model", COMPRESSED[name])
        if name not in KNOWN and not name.startswith(HARMLESS):
            raise ModelError(f"The model requires {name}, which isn't read.")


def raise_compressed(label, name):
    raise ModelError(f"{label} is compressed by {name}, which isn't read; unpack it first.")


def first_nodes(document):
    """The nodes at the top: those of the scene that is shown, or where there is no scene those without a parent."""
    scenes, root = document.table("scenes", "scene"), document.root
    if scenes:
        scene = document.pick("scenes", "scene", root.whole("scene", 0), root)
        return [(number, scene) for number in scene.wholes("nodes")]
    nodes = document.table("nodes", "node")
    children = {child for node in nodes for child in node.wholes("children")}
    return [(number, root) for number in range(len(nodes)) if number not in children]


def animated_nodes(document):
    """The numbers of nodes that an animation moves."""
    animations = document.table("animations", "animation")
    targets = [channel.entry("target") for entry in animations for channel in entry.entries("channels", "channel")]
    return {target.whole("node") for target in targets if target.has("node")}


def place_of(node):
    """The map of a node into its parent."""
    if node.has("matrix"):
        return transforms.of_columns(node.reals("matrix", 16))
    move, scale = node.reals("translation", 3, (0, 0, 0)), node.reals("scale", 3, (1, 1, 1))
    return transforms.of_parts(move, node.reals("rotation", 4, (0, 0, 0, 1)), scale)


def material_of(entry):
    """Glass, which lets light through whatever its alpha mode is, is clear too."""
    mode, glass = entry.text("alphaMode", "OPAQUE"), entry.extension("KHR_materials_transmission")
    is_clear = mode != "OPAQUE" or bool(glass and glass.real("transmissionFactor", 0) > 0)
    return Material(entry.text("name", ""), is_clear, entry.flag("doubleSided"))


def triangles_by(mode, numbers):
    """The triangles of a list, a strip or a fan of points."""
    if mode == TRIANGLES:
        ends = iter(numbers)
        return list(zip(ends, ends, ends))
    if mode == FAN:
        return [(b, c, numbers[0]) for b, c in zip(numbers[1:], numbers[2:])]
    rows = enumerate(zip(numbers, numbers[1:], numbers[2:]))
    return [(a, c, b) if place % 2 else (a, b, c) for place, (a, b, c) in rows]


def test_counts(owner, points, *others):
    """Refuses other numbers of a primitive that aren't as many as its points."""
    for other in others:
        if len(other) != len(points):
            raise ModelError(f"{owner.label} have {len(points)} points, and {len(other)} of something else for them.")


def skinned(point, weighted):
    """A point moved by maps with weights."""
    total = sum(weight for weight, _ in weighted) or 1.0
    places = [(weight / total, transforms.moved([point], by)[0]) for weight, by in weighted]
    return tuple(sum(weight * place[axis] for weight, place in places) for axis in range(3))
