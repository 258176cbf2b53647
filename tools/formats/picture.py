"""Pictures: PPM (P6) in, PNG and small maps of letters out."""
import re
import struct
import zlib
from collections import Counter

from .lines import Wrong

HEAD = re.compile(rb"P6\n([1-9][0-9]*) ([1-9][0-9]*)\n255\n")
LETTERS = {0x000000: ".", 0x808080: "-", 0xFF0000: "R", 0x00FF00: "G", 0x0000FF: "B", 0xFFFF00: "Y", 0xFFFFFF: "W"}
OTHERS = "abcdefghijklmnopqrstuvwxyz"


class Picture:
    """A picture of `width` by `height` pixels: three bytes each, rows from the top."""

    def __init__(self, file):
        head = HEAD.match(file)
        if not head:
            raise Wrong("the picture doesn't begin as P6, its size and 255")
        self.file = file
        self.width, self.height = int(head[1]), int(head[2])
        self.pixels = file[head.end():]
        if len(self.pixels) != 3 * self.width * self.height:
            sizes = f"{self.width} by {self.height} pixels and {len(self.pixels)} bytes of them"
            raise Wrong(f"the picture states {sizes}")

    def rows(self):
        row = 3 * self.width
        return [self.pixels[at:at + row] for at in range(0, len(self.pixels), row)]

    def png(self):
        """The picture as a PNG file."""
        rows = zlib.compress(b"".join(b"\0" + row for row in self.rows()), 6)
        head = struct.pack(">IIBBBBB", self.width, self.height, 8, 2, 0, 0, 0)
        return b"\x89PNG\r\n\x1a\n" + chunk(b"IHDR", head) + chunk(b"IDAT", rows) + chunk(b"IEND", b"")

    def colours(self):
        """How many pixels have each colour, the most frequent first."""
        counted = Counter(zip(self.pixels[0::3], self.pixels[1::3], self.pixels[2::3]))
        return [(red << 16 | green << 8 | blue, count) for (red, green, blue), count in counted.most_common()]

    def map(self):
        """A letter for each pixel and a line of what the letters mean; None where letters don't suffice."""
        letters = letters_of([colour for colour, _ in self.colours()])
        if letters is None:
            return None
        lines = ["".join(letters[pixel] for pixel in zip(row[0::3], row[1::3], row[2::3])) for row in self.rows()]
        meanings = [f"{letters[split(colour)]}={colour:06x} ({count})" for colour, count in self.colours()]
        return lines + [" ".join(meanings)]


def split(colour):
    return colour >> 16, colour >> 8 & 255, colour & 255


def letters_of(colours):
    others = [colour for colour in colours if colour not in LETTERS]
    if len(others) > len(OTHERS):
        return None
    letters = dict(LETTERS)
    letters.update(zip(others, OTHERS))
    return {split(colour): letters[colour] for colour in colours}


def chunk(name, data):
    return struct.pack(">I", len(data)) + name + data + struct.pack(">I", zlib.crc32(name + data))
