#!/usr/bin/env python3
"""Draws a box of examples/castle.toml as a picture in the form PNG, seen from above and from one side.

    wfc box-fill examples/castle.toml .. --form cells | isometric.py > castle.png

Reads the layers of the box with the numbers of their variants, and draws each that is no open sky as a block: its top, its left side and
its right side. What stands behind and below is drawn first.
"""
import struct
import sys
import zlib

# The variants of each tile, in the order of the tile set, and what its block looks like.
TILES = (
    ("yard", 1, (150, 178, 96), 1),
    ("tree", 1, (58, 122, 62), 5),
    ("wall", 2, (168, 160, 148), 8),
    ("gate", 2, (104, 72, 44), 8),
    ("tower", 4, (146, 138, 128), 8),
    ("sky", 1, None, 0),
    ("rampart", 2, (186, 178, 166), 3),
    ("turret", 4, (160, 150, 140), 8),
    ("keep", 1, (176, 166, 152), 8),
    ("roof", 1, (172, 70, 52), 6),
)
HALF, RISE, STOREY, EDGE = 10, 5, 8, 12
SHADES = (1.0, 0.72, 0.55)


def kinds():
    return [tile for tile in TILES for _ in range(tile[1])]


def layers(text):
    """The layers from the ground up, each as rows of numbers."""
    found = []
    for line in text.splitlines():
        if line.startswith("layer "):
            found.append([])
        elif line:
            found[-1].append([int(word) for word in line.split()])
    return found


class Picture:
    def __init__(self, width, height):
        self.width, self.rows = width, [bytearray(bytes((232, 240, 248)) * width) for _ in range(height)]

    def line(self, x, top, bottom, colour):
        """A column of pixels."""
        for y in range(max(top, 0), min(bottom, len(self.rows))):
            self.rows[y][3 * x : 3 * x + 3] = bytes(colour)

    def block(self, x, y, colour, high):
        """A block whose top has its middle at a place, so many pixels high."""
        top, left, right = (tuple(int(part * shade) for part in colour) for shade in SHADES)
        for step in range(-HALF, HALF):
            slope = abs(step) * RISE // HALF
            self.line(x + step, y - RISE + slope, y + RISE - slope, top)
            self.line(x + step, y + RISE - slope, y + RISE - slope + high, left if step < 0 else right)

    def png(self):
        def chunk(name, data):
            return struct.pack(">I", len(data)) + name + data + struct.pack(">I", zlib.crc32(name + data))

        head = struct.pack(">IIBBBBB", self.width, len(self.rows), 8, 2, 0, 0, 0)
        body = zlib.compress(b"".join(b"\0" + bytes(row) for row in self.rows), 9)
        return b"\x89PNG\r\n\x1a\n" + chunk(b"IHDR", head) + chunk(b"IDAT", body) + chunk(b"IEND", b"")


def main():
    box, looks = layers(sys.stdin.read()), kinds()
    high, wide = len(box[0]), len(box[0][0])
    sky = len(box) * STOREY
    picture = Picture((wide + high) * HALF + 2 * EDGE, (wide + high) * RISE + sky + 2 * EDGE)
    for z, layer in enumerate(box):
        for y, row in enumerate(layer):
            for x, value in enumerate(row):
                _, _, colour, tall = looks[value]
                if colour:
                    middle = EDGE + high * HALF + (x - y) * HALF
                    ground = EDGE + sky + (x + y) * RISE + RISE - z * STOREY
                    picture.block(middle, ground - tall, colour, tall)
    sys.stdout.buffer.write(picture.png())


if __name__ == "__main__":
    main()
