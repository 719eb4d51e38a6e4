"""A glTF document: the container, its buffers, and typed access to its JSON.

Whatever a file holds, it is refused by a `ModelError` whose text is a sentence; nothing else is raised."""
import base64
import binascii
import json
import pathlib
import struct
import urllib.parse

MAGIC, JSON_CHUNK, BIN_CHUNK = b"glTF", 0x4E4F534A, 0x004E4942
REQUIRED = object()
MOST_REAL = 1e30


class ModelError(Exception):
    """A model that can't be read: a sentence that says why."""


class Entry:
    """An object of the document, with a label for messages, as `node 3`. Each call tests the type of what it gives."""

    def __init__(self, label, members):
        if not isinstance(members, dict):
            raise ModelError(f"{label} isn't an object.")
        self.label, self.members = label, members

    def has(self, name):
        return name in self.members

    def member(self, name, default, accepts, kind):
        """A member that some test accepts, or the default where there is none."""
        if name not in self.members:
            if default is REQUIRED:
                raise ModelError(f"In {self.label} the member {name} is missing.")
            return default
        value = self.members[name]
        if not accepts(value):
            raise ModelError(f"In {self.label} the member {name} isn't {kind}.")
        return value

    def whole(self, name, default=REQUIRED):
        return self.member(name, default, is_whole, "a whole number from 0 on")

    def real(self, name, default=REQUIRED):
        return self.member(name, default, is_real, "a number")

    def text(self, name, default=REQUIRED):
        value = self.member(name, default, lambda value: isinstance(value, str), "a text")
        # JSON may spell halves of characters, which nothing can write again
        return value.encode("utf-8", "replace").decode("utf-8")

    def flag(self, name):
        return self.member(name, False, lambda value: isinstance(value, bool), "true or false")

    def reals(self, name, count, default=REQUIRED):
        """So many numbers, or as many as there are where the count is None."""
        return self.member(name, default, lambda value: are_reals(value, count), f"{count or 'a list of'} numbers")

    def wholes(self, name, default=()):
        return self.member(name, default, are_wholes, "a list of whole numbers")

    def texts(self, name):
        return self.member(name, (), are_texts, "a list of texts")

    def entry(self, name, default=REQUIRED):
        """An object within this one."""
        if default is not REQUIRED and name not in self.members:
            return default
        value = self.member(name, default, lambda value: isinstance(value, dict), "an object")
        return Entry(f"the {name} of {self.label}", value)

    def entries(self, name, singular):
        """A list of objects, each with a label of its own."""
        values = self.member(name, (), lambda value: isinstance(value, list), "a list")
        return [Entry(f"{singular} {number}", value) for number, value in enumerate(values)]

    def extension(self, name):
        """An extension of this object, or None."""
        extensions = self.entry("extensions", None)
        return extensions.entry(name, None) if extensions else None


def is_whole(value):
    return isinstance(value, int) and not isinstance(value, bool) and value >= 0


def is_real(value):
    return isinstance(value, (int, float)) and not isinstance(value, bool) and -MOST_REAL < value < MOST_REAL


def are_wholes(value):
    return isinstance(value, list) and all(map(is_whole, value))


def are_reals(value, count):
    return isinstance(value, list) and (count is None or len(value) == count) and all(map(is_real, value))


def are_texts(value):
    return isinstance(value, list) and all(isinstance(text, str) for text in value)


class Document:
    """The JSON of a model, its tables, and the bytes of its buffers."""

    def __init__(self, path):
        self.path = pathlib.Path(path)
        text, self.binary = parts_of_file(self.path)
        self.root = Entry("the document", parsed(text))
        self.tables, self.loaded = {}, {}
        self.test_version()

    def test_version(self):
        asset = self.root.entry("asset")
        version = asset.text("minVersion", asset.text("version"))
        if version.split(".")[0] != "2":
            raise ModelError(f"The document is glTF {version}; glTF 2 is read.")

    def table(self, name, singular):
        """A list of the root, as its `nodes`, with the singular for messages."""
        if name not in self.tables:
            self.tables[name] = self.root.entries(name, singular)
        return self.tables[name]

    def pick(self, name, singular, number, owner):
        """An entry of a table by its number, which its owner names."""
        table = self.table(name, singular)
        if number >= len(table):
            raise ModelError(f"{owner.label} names {singular} {number}, and there are {len(table)}.")
        return table[number]

    def buffer(self, number, owner):
        """The bytes of a buffer."""
        if number not in self.loaded:
            entry = self.pick("buffers", "buffer", number, owner)
            self.loaded[number] = self.bytes_of(entry, number)
        return self.loaded[number]

    def bytes_of(self, entry, number):
        length = entry.whole("byteLength")
        if entry.has("uri"):
            found = bytes_at(entry.text("uri"), self.path, entry.label)
        elif number == 0 and self.binary is not None:
            found = self.binary
        else:
            raise ModelError(f"{entry.label} has no uri, and there is no binary chunk for it.")
        if len(found) < length:
            raise ModelError(f"{entry.label} is to have {length} bytes, and there are {len(found)}.")
        return memoryview(found)[:length]


def read_bytes(path, what):
    try:
        return path.read_bytes()
    except OSError as error:
        raise ModelError(f"{what} can't be read: {error.strerror}.") from None


def parts_of_file(path):
    """The JSON's bytes, and those of the binary chunk or None."""
    found = read_bytes(path, f"The model {path}")
    if found[:4] == MAGIC:
        return parts_of_binary(found)
    if path.suffix.lower() == ".glb" or not found.lstrip(b"\xef\xbb\xbf \t\r\n").startswith(b"{"):
        raise ModelError("The file is neither a .glb, which begins with the bytes glTF, nor a .gltf, which is JSON.")
    return found, None


def parts_of_binary(found):
    """The two chunks of a .glb."""
    if len(found) < 20:
        raise ModelError(f"The .glb is cut: it has {len(found)} bytes.")
    version, length = struct.unpack_from("<2I", found, 4)
    if version != 2:
        raise ModelError(f"The .glb has version {version}; version 2 is read.")
    if length != len(found):
        raise ModelError(f"The .glb's header says {length} bytes, and the file has {len(found)}.")
    chunks, offset = [], 12
    while offset + 8 <= length:
        size, kind = struct.unpack_from("<2I", found, offset)
        if offset + 8 + size > length:
            raise ModelError(f"A chunk of the .glb says {size} bytes, and {length - offset - 8} are left.")
        chunks.append((kind, found[offset + 8 : offset + 8 + size]))
        offset += 8 + size
    if not chunks or chunks[0][0] != JSON_CHUNK:
        raise ModelError("The .glb's first chunk isn't JSON.")
    binary = chunks[1][1] if len(chunks) > 1 and chunks[1][0] == BIN_CHUNK else None
    return chunks[0][1], binary


def parsed(text):
    try:
        return json.loads(text.decode("utf-8-sig"))
    except (ValueError, RecursionError) as error:
        raise ModelError(f"The document isn't JSON: {error}.") from None


def bytes_at(uri, path, label):
    """The bytes that a buffer's uri holds, or those of the file that it names beside the model."""
    if uri.startswith("data:"):
        head, comma, body = uri.partition(",")
        if not comma or not head.endswith(";base64"):
            raise ModelError(f"{label} has embedded data that isn't base64.")
        try:
            return base64.b64decode(body, validate=True)
        except binascii.Error:
            raise ModelError(f"{label} has embedded data that isn't base64.") from None
    name = urllib.parse.unquote(uri)
    if ":" in name or "\0" in name:
        raise ModelError(f"{label} lies at {uri[:80]}; only files beside the model are read.")
    return read_bytes(path.parent / name, f"The file {name} of {label}")
