#!/usr/bin/env python3
"""Turns a grey map of the plain form of PGM, as `maskcull picture` writes it, into a PNG of 16 bits a pixel.

usage: scenes/png.py [--stretch] < PICTURE > FILE.png

With --stretch the greatest number becomes white, since what is far is dark."""
import argparse
import struct
import sys
import zlib

WHITE = 65535


def grey_map(text):
    """The width, the height, the greatest number that there may be, and the numbers, row by row."""
    form, width, height, most, *numbers = text.split()
    width, height, most, numbers = int(width), int(height), int(most), list(map(int, numbers))
    if form != "P2" or len(numbers) != width * height:
        sys.exit("this isn't a grey map of the plain form")
    return width, height, most, numbers


def chunk(name, content):
    return struct.pack(">I", len(content)) + name + content + struct.pack(">I", zlib.crc32(name + content))


def png(width, height, shades):
    rows = (struct.pack(f">x{width}H", *shades[row * width:(row + 1) * width]) for row in range(height))
    header = struct.pack(">2I5B", width, height, 16, 0, 0, 0, 0)
    pixels = zlib.compress(b"".join(rows), 9)
    return b"\x89PNG\r\n\x1a\n" + chunk(b"IHDR", header) + chunk(b"IDAT", pixels) + chunk(b"IEND", b"")


def main():
    parser = argparse.ArgumentParser(description=__doc__, formatter_class=argparse.RawDescriptionHelpFormatter)
    parser.add_argument("--stretch", action="store_true", help="the greatest number becomes white")
    stretch = parser.parse_args().stretch
    width, height, most, numbers = grey_map(sys.stdin.read())
    if stretch:
        most = max(numbers) or most
    shades = [number * WHITE // most for number in numbers]
    sys.stdout.buffer.write(png(width, height, shades))


if __name__ == "__main__":
    main()
