"""PNG files of 8 bits a channel, by `zlib` and `struct` alone."""
import struct
import zlib

SIGNATURE = b"\x89PNG\r\n\x1a\n"
COLOUR_TYPES = {1: 0, 3: 2}
# How far each byte is from 0, on either side.
SIZES = bytes(min(byte, 256 - byte) for byte in range(256))


def chunk(name, body):
    return struct.pack(">I", len(body)) + name + body + struct.pack(">I", zlib.crc32(name + body))


def png_of(width, rows, channels):
    """The file of rows of bytes, each with `width` pixels of 1 channel (grey) or 3 (red, green, blue)."""
    header = struct.pack(">2I5B", width, len(rows), 8, COLOUR_TYPES[channels], 0, 0, 0)
    above, lines = bytes(width * channels), []
    for row in rows:
        lines.append(filtered(row, above, channels))
        above = row
    packed = zlib.compress(b"".join(lines), 9)
    return SIGNATURE + chunk(b"IHDR", header) + chunk(b"IDAT", packed) + chunk(b"IEND", b"")


def filtered(row, above, channels):
    """A row as it is, or as what it adds to the row above or to the pixel before: what has the least sum."""
    before = bytes(channels) + row[:-channels]
    ways = [(kind, bytes((a - b) & 255 for a, b in zip(row, base))) for kind, base in ((2, above), (1, before))]
    ways.append((0, row))
    kind, body = min(ways, key=lambda way: sum(way[1].translate(SIZES)))
    return bytes([kind]) + body
