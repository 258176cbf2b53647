"""The record: its items as bytes, both ways, with the faults that a reader finds."""
import itertools
import re
import struct
from collections import namedtuple

# The four bytes of each version.
MAGICS = {1: b"QGR1", 2: b"QGR2", 3: b"QGR3"}
CONFIG, BYTES, CLOSED, STORE, KEY, MOVE, PRESS, COMMAND, SNAP, END, LOST = range(1, 12)
LONGEST_PIECE = 65536

# The fixed fields of each kind of item, behind the kind byte. The bytes of a kind that has a length
# follow the fixed fields.
Layout = namedtuple("Layout", "name form fields")
LAYOUTS = {
    BYTES: Layout("bytes", "<BI", ("guest", "length")),
    CLOSED: Layout("closed", "<B", ("guest",)),
    STORE: Layout("store", "<BHIII", ("guest", "delay", "page", "offset", "length")),
    KEY: Layout("key", "<BBH", ("down", "code", "state")),
    MOVE: Layout("move", "<iiH", ("x", "y", "state")),
    PRESS: Layout("press", "<BBH", ("down", "button", "state")),
    COMMAND: Layout("command", "<Bii", ("code", "a", "b")),
    SNAP: Layout("snap", "<", ()),
    END: Layout("end", "<", ()),
    LOST: Layout("lost", "<B", ("guest",)),
}
COMMANDS = {1: "close", 2: "next", 3: "restore", 4: "move_to", 5: "size_to"}

# Where an item begins, its kind, its fixed fields by name, and the bytes behind them.
Item = namedtuple("Item", "kind fields data offset", defaults=(b"", None))

SETUP_FIELDS = ("width", "height", "border", "pages", "tiles", "percent", "background")
SETUP_USUAL = {"border": 2, "pages": 8192, "tiles": 4096, "percent": 90, "background": 0}
SETUP_FORM = "<7IB"
Guest = namedtuple("Guest", "name colour")
Output = namedtuple("Output", "x y w h")
OUTPUT_FORM = "<iiII"
Pair = namedtuple("Pair", "source target")


class Setup:
    """A record's configuration: `values` by field, the guests, the outputs, the clipboard's revision and the denied
    pairs. Without outputs the one output is the whole plane."""

    def __init__(self, values, guests, outputs=None, clip=1, denied=()):
        self.values = dict(values)
        self.guests = list(guests)
        self.outputs = [self.plane()] if outputs is None else list(outputs)
        self.clip = clip
        self.denied = list(denied)

    def plane(self):
        return Output(0, 0, self.values["width"], self.values["height"])

    def version(self):
        """The lowest version that has this setup."""
        if self.clip != 1 or self.denied:
            return 3
        return 1 if self.outputs == [self.plane()] else 2

    def spell(self, version=None):
        """The bytes of the setup, in its own version or, where a wrong record is wanted, in another one."""
        version = version or self.version()
        numbers = [self.values[field] for field in SETUP_FIELDS]
        parts = [MAGICS[version], bytes([CONFIG]), struct.pack(SETUP_FORM, *numbers, len(self.guests))]
        for guest in self.guests:
            parts.append(struct.pack("<IB", guest.colour, len(guest.name)) + guest.name)
        if version > 1:
            parts.append(bytes([len(self.outputs)]))
            parts.extend(struct.pack(OUTPUT_FORM, *output) for output in self.outputs)
        if version > 2:
            parts.append(bytes([self.clip, len(self.denied)]))
            parts.extend(bytes(pair) for pair in self.denied)
        return b"".join(parts)

    def broken_rule(self):
        """The number of the first rule that is broken and its sentence, or None."""
        for number, sentence, holds in self.rules():
            if not holds:
                return number, sentence
        return None

    def rules(self):
        width, height, border, pages, tiles, percent, background = (self.values[field] for field in SETUP_FIELDS)
        names = [guest.name for guest in self.guests]
        colours = [guest.colour for guest in self.guests]
        return (
            (1, "there are 1 to 16 guests", 1 <= len(names) <= 16),
            (2, "the width is 1 to 8192", 1 <= width <= 8192),
            (3, "the height is 1 to 8192", 1 <= height <= 8192),
            (4, "the desktop has at most 33177600 pixels", width * height <= 33177600),
            (5, "the border is 1 to 16", 1 <= border <= 16),
            (6, "the pages are 1 to 16384", 1 <= pages <= 16384),
            (7, "the tiles are 1 to 4096", 1 <= tiles <= 4096),
            (8, "the percent are 1 to 90", 1 <= percent <= 90),
            (9, "the background is at most ffffff", background <= 0xFFFFFF),
            (10, "each guest's colour is at most ffffff", all(colour <= 0xFFFFFF for colour in colours)),
            (11, "each name has 1 to 32 bytes", all(1 <= len(name) <= 32 for name in names)),
            (12, "each name is a to z, and then a to z, 0 to 9 and -", all(map(is_name, names))),
            (13, "no two names are equal", len(set(names)) == len(names)),
            (14, "no guest has the background's colour", background not in colours),
            (17, "there are 1 to 8 outputs", 1 <= len(self.outputs) <= 8),
            (18, "each output has pixels and lies in the plane", all(map(self.has_output, self.outputs))),
            (19, "no two outputs share a pixel", not any(share(*two) for two in itertools.combinations(self.outputs, 2))),
            (20, "the clipboard's revision is 1 or 2", self.clip in (1, 2)),
            (21, "each pair names two different guests", all(map(self.has_pair, self.denied))),
            (22, "the pairs rise, and no two are equal", all(a < b for a, b in zip(self.denied, self.denied[1:]))),
        )

    def has_output(self, output):
        x, y, w, h = output
        return min(x, y) >= 0 and min(w, h) >= 1 and x + w <= self.values["width"] and y + h <= self.values["height"]

    def has_pair(self, pair):
        return max(pair) < len(self.guests) and pair.source != pair.target


def share(one, other):
    """Whether two outputs share a pixel."""
    across = one.x < other.x + other.w and other.x < one.x + one.w
    return across and one.y < other.y + other.h and other.y < one.y + one.h


def is_name(name):
    return re.fullmatch(rb"[a-z][a-z0-9-]*", name) is not None


class RecordFault(Exception):
    """What is wrong with a record's bytes, and the offset of the item in which it is."""

    def __init__(self, offset, kind, sentence):
        super().__init__(f"{kind}: {sentence}")
        self.offset = offset
        self.kind = kind


def spell_item(item):
    layout = LAYOUTS[item.kind]
    values = [len(item.data) if field == "length" else item.fields[field] for field in layout.fields]
    return bytes([item.kind]) + struct.pack(layout.form, *values) + item.data


def range_fault(item, setup):
    """A sentence about the first field that is out of its range, or None."""
    for sentence, holds in ranges_of(item, setup):
        if not holds:
            return sentence
    return None


def ranges_of(item, setup):
    """The sentences that the fields of an item keep, each with whether it does."""
    fields = item.fields
    if "guest" in fields:
        yield f"guest {fields['guest']} is one of the {len(setup.guests)} guests", fields["guest"] < len(setup.guests)
    if item.kind == BYTES:
        yield f"a piece has 1 to {LONGEST_PIECE} bytes", 1 <= fields["length"] <= LONGEST_PIECE
    if item.kind == STORE:
        yield from ranges_of_store(fields, setup.values["pages"])
    if "down" in fields:
        yield "down is 0 or 1", fields["down"] <= 1
    if "button" in fields:
        yield "a button is 1 to 15", 1 <= fields["button"] <= 15
    if "state" in fields:
        yield "a state is at most 8191", fields["state"] <= 8191
    if item.kind == COMMAND:
        yield "a command's code is 1 to 5", fields["code"] in COMMANDS
        yield "a and b of this command are 0", fields["code"] > 3 or fields["a"] == fields["b"] == 0


def ranges_of_store(fields, pages):
    yield f"the page is one of the {pages} pages", fields["page"] < pages
    yield "the offset is a multiple of 4", fields["offset"] % 4 == 0
    yield "the length is a multiple of 4", fields["length"] % 4 == 0
    yield "the length is at least 4", fields["length"] >= 4
    yield "the bytes end within their page of 4096", fields["offset"] + fields["length"] <= 4096


class Reader:
    """Reads a record's bytes item by item. With `loose` the ranges and the rules aren't looked at."""

    def __init__(self, data, loose=False):
        self.data = data
        self.loose = loose
        self.at = 0
        self.item_at = 0
        self.version = 1

    def take(self, count, what):
        if len(self.data) - self.at < count:
            raise RecordFault(self.item_at, "short", f"the input ends within {what}")
        piece = self.data[self.at:self.at + count]
        self.at += count
        return piece

    def kind(self):
        self.item_at = self.at
        return self.take(1, "the record, where an item is due")[0]

    def setup(self):
        """The magic and the configuration."""
        magic = self.take(4, "its first four bytes")
        if magic not in MAGICS.values():
            raise RecordFault(0, "magic", "a record begins with QGR1, QGR2 or QGR3")
        self.version = next(number for number, known in MAGICS.items() if known == magic)
        kind = self.kind()
        if kind != CONFIG:
            raise RecordFault(self.item_at, "kind", f"the first item is the configuration (1), not {kind}")
        numbers = struct.unpack(SETUP_FORM, self.take(struct.calcsize(SETUP_FORM), "the configuration"))
        self.expect(1, "there are 1 to 16 guests", 1 <= numbers[-1] <= 16)
        guests = [self.guest() for _ in range(numbers[-1])]
        outputs = self.outputs() if self.version > 1 else None
        clip, denied = self.clipboard() if self.version > 2 else (1, ())
        setup = Setup(zip(SETUP_FIELDS, numbers), guests, outputs, clip, denied)
        self.expect(*setup.broken_rule() or (0, "", True))
        if setup.version() != self.version and not self.loose:
            raise RecordFault(self.item_at, "range", f"version {setup.version()} has this configuration")
        return setup

    def expect(self, rule, sentence, holds=False):
        if not holds and not self.loose:
            raise RecordFault(self.item_at, f"bad configuration, rule {rule}", sentence)

    def outputs(self):
        count = self.take(1, "the number of outputs")[0]
        self.expect(17, "there are 1 to 8 outputs", 1 <= count <= 8)
        size = struct.calcsize(OUTPUT_FORM)
        return [Output(*struct.unpack(OUTPUT_FORM, self.take(size, "an output"))) for _ in range(count)]

    def clipboard(self):
        """The revision and the denied pairs."""
        clip, count = self.take(2, "the clipboard's revision and the number of pairs")
        return clip, [Pair(*self.take(2, "a pair")) for _ in range(count)]

    def guest(self):
        colour, length = struct.unpack("<IB", self.take(5, "a guest"))
        return Guest(self.take(length, "a guest's name"), colour)

    def item(self, setup):
        """The next item."""
        kind = self.kind()
        if kind not in LAYOUTS:
            raise RecordFault(self.item_at, "kind", f"{kind} is no kind of a later item")
        layout = LAYOUTS[kind]
        form = self.take(struct.calcsize(layout.form), f"the fields of {layout.name}")
        fields = dict(zip(layout.fields, struct.unpack(layout.form, form)))
        fault = range_fault(Item(kind, fields), setup)
        if fault and not self.loose:
            raise RecordFault(self.item_at, "range", f"it doesn't hold that {fault}")
        data = self.take(fields.get("length", 0), f"the bytes that follow the fields of {layout.name}")
        return Item(kind, fields, data, self.item_at)
