#!/usr/bin/env python3
"""Turns a binary PPM file into a PNG file, each pixel drawn as a square of pixels.

tests/png.py IN.ppm OUT.png [FACTOR]
"""
import re
import struct
import sys
import zlib
from pathlib import Path


def read_ppm(data):
    """Width, height and pixels of a PPM file as windows are: three parts, each ended by a line feed, and then its bytes."""
    head = re.match(rb"P6\n([1-9][0-9]*) ([1-9][0-9]*)\n255\n", data)
    if not head:
        raise ValueError("no head of a binary PPM file")
    width, height = int(head[1]), int(head[2])
    pixels = data[head.end():]
    if len(pixels) != 3 * width * height:
        raise ValueError(f"{len(pixels)} bytes of pixels for {width} by {height}")
    return width, height, pixels


def chunk(name, data):
    return struct.pack(">I", len(data)) + name + data + struct.pack(">I", zlib.crc32(name + data))


def png(width, height, pixels, factor):
    rows = []
    for y in range(height):
        row = b"".join(pixels[i:i + 3] * factor for i in range(3 * width * y, 3 * width * (y + 1), 3))
        rows.append((b"\0" + row) * factor)
    head = struct.pack(">IIBBBBB", width * factor, height * factor, 8, 2, 0, 0, 0)
    return b"\x89PNG\r\n\x1a\n" + chunk(b"IHDR", head) + chunk(b"IDAT", zlib.compress(b"".join(rows), 9)) + chunk(b"IEND", b"")


def convert(source, target, factor):
    Path(target).write_bytes(png(*read_ppm(Path(source).read_bytes()), factor))


if __name__ == "__main__":
    convert(sys.argv[1], sys.argv[2], int(sys.argv[3]) if len(sys.argv) > 3 else 1)
