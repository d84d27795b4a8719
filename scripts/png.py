#!/usr/bin/env python3
"""Writes a picture of this program (PPM, binary, of 255) as a PNG of the same bytes:

    png.py PICTURE PNG
"""
import re
import struct
import sys
import zlib


def pixels_of(data):
    """Width, height and the bytes of the rows."""
    header = re.match(rb"P6\n(\d+) (\d+)\n255\n", data)
    if not header:
        sys.exit("no picture: the header is not P6, width, height, 255")
    width, height = int(header[1]), int(header[2])
    if len(data) != header.end() + 3 * width * height:
        sys.exit("the picture is not whole")
    return width, height, data[header.end():]


def filtered(above, row):
    """A row less what stands above it or to the left, whichever leaves less, under the number of that filter."""
    forms = {1: b"\0\0\0" + row[:-3], 2: above}
    kept = {kind: bytes((a - b) & 255 for a, b in zip(row, before)) for kind, before in forms.items()}
    least = min(kept, key=lambda kind: sum(byte if byte < 128 else 256 - byte for byte in kept[kind]))
    return bytes([least]) + kept[least]


def chunk(name, data):
    return struct.pack(">I", len(data)) + name + data + struct.pack(">I", zlib.crc32(name + data))


def png_of(width, height, pixels):
    rows = [pixels[at:at + 3 * width] for at in range(0, 3 * width * height, 3 * width)]
    lines = [filtered(above, row) for above, row in zip([bytes(3 * width)] + rows, rows)]
    head = struct.pack(">IIBBBBB", width, height, 8, 2, 0, 0, 0)
    body = zlib.compress(b"".join(lines), 9)
    return b"\x89PNG\r\n\x1a\n" + chunk(b"IHDR", head) + chunk(b"IDAT", body) + chunk(b"IEND", b"")


if __name__ == "__main__":
    if len(sys.argv) != 3:
        sys.exit("usage: png.py PICTURE PNG")
    with open(sys.argv[1], "rb") as source:
        picture = pixels_of(source.read())
    with open(sys.argv[2], "wb") as target:
        target.write(png_of(*picture))
