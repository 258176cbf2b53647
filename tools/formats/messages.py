"""The messages between agent and daemon. A body is a list of parts, spelled as `key=value` words."""
import hashlib
import itertools
import re
import struct

from .lines import Wrong, bytes_of, hex_of, number_of, only_keys, quoted, told


class Word:
    """A number of 32 bits, least byte first."""

    size = 4

    def __init__(self, name, default=None, signed=False, meanings=()):
        self.name = name
        self.keys = (name,)
        self.default = default
        self.signed = signed
        self.meanings = dict(meanings)

    def spell(self, values):
        value = values.get(self.name, self.default)
        if value is None:
            raise Wrong(f"{self.name}= is missing")
        return struct.pack("<I", number_of(value, self.name, -(2**31), 2**32 - 1) % 2**32)

    def show(self, body):
        number = struct.unpack("<i" if self.signed else "<I", body)[0]
        return f"{self.name}={self.meanings.get(number, number)}"


class Text:
    """A text in a room of fixed size, filled up with zero bytes."""

    def __init__(self, name, size):
        self.name = name
        self.keys = (name,)
        self.size = size

    def spell(self, values):
        if self.name not in values:
            raise Wrong(f"{self.name}= is missing")
        data = bytes_of(values[self.name])
        if len(data) > self.size:
            raise Wrong(f"{self.name} has {len(data)} bytes and room for {self.size}")
        return data.ljust(self.size, b"\0")

    def show(self, body):
        return f"{self.name}={quoted(body.rstrip(bytes(1)))}"


class Data:
    """All bytes that are left: as text=, as hex=, or as one byte fill= that comes count= times."""

    size = None
    keys = ("text", "hex", "fill", "count")

    def spell(self, values):
        if set(values) == {"text"}:
            return bytes_of(values["text"])
        if set(values) == {"hex"}:
            return hex_of(values["hex"], "hex")
        if set(values) == {"fill", "count"}:
            fill = hex_of(values["fill"], "fill")
            if len(fill) != 1:
                raise Wrong("fill is two hexadecimal digits")
            return fill * number_of(values["count"], "count", 0, 2**24)
        raise Wrong("this has text=, or hex=, or fill= and count=")

    def fits(self, length):
        return True

    def show(self, body):
        if len(body) > 32 and len(set(body)) == 1:
            return f"fill={body[0]:02x} count={len(body)}"
        if all(32 <= byte <= 126 for byte in body):
            return f"text={quoted(body)}"
        return f"hex={body.hex()}"


class Digest(Data):
    """Data that is only shown: whole where it is short or one byte many times, else its length and a hash."""

    def show(self, body):
        if len(body) <= 64 or len(set(body)) == 1:
            return super().show(body)
        return f"bytes={len(body)} sha256={hashlib.sha256(body).hexdigest()[:16]}"


class References:
    """All numbers that are left, as refs=0..7,9: a..b is every number from a to b."""

    size = None
    keys = ("refs",)

    def spell(self, values):
        if not isinstance(values.get("refs"), str):
            raise Wrong("refs= is missing")
        numbers = []
        for part in filter(None, values["refs"].split(",")):
            first, dots, last = part.partition("..")
            low = number_of(first, "refs", 0, 2**32 - 1)
            high = number_of(last, "refs", low, min(low + 2**20, 2**32 - 1)) if dots else low
            numbers.extend(range(low, high + 1))
        return struct.pack(f"<{len(numbers)}I", *numbers)

    def fits(self, length):
        return length % 4 == 0

    def show(self, body):
        numbers = struct.unpack(f"<{len(body) // 4}I", body)
        runs = itertools.groupby(enumerate(numbers), lambda pair: pair[1] - pair[0])
        return "refs=" + ",".join(run_text([number for _, number in run]) for _, run in runs)


def run_text(run):
    return str(run[0]) if len(run) == 1 else f"{run[0]}..{run[-1]}"


class Keys:
    """The 32 bytes of the keys that are down."""

    size = 32
    keys = ()

    def show(self, body):
        return f"keys={body.hex()}" if any(body) else "keys=none"


class Message:
    """A message by its type, its name and the parts of its body."""

    def __init__(self, kind, name, *parts):
        self.kind = kind
        self.name = name
        self.parts = parts
        self.keys = [key for part in parts for key in part.keys]

    def spell(self, values):
        """The body of these `key=` words."""
        only_keys(values, self.keys)
        return b"".join(part.spell(values) for part in self.parts)

    def show(self, body):
        """The body as `key=value` words; None where its length isn't one that the message can have."""
        words = []
        at = 0
        for part in self.parts:
            size = len(body) - at if part.size is None else part.size
            if len(body) - at < size or (part.size is None and not part.fits(size)):
                return None
            words.append(part.show(body[at:at + size]))
            at += size
        return " ".join(words) if at == len(body) else None


def place(*behind):
    return (Word("x", signed=True), Word("y", signed=True), Word("width"), Word("height")) + behind


OVERRIDE = Word("override", "0")
HINTS = "flags min_width min_height max_width max_height width_inc height_inc base_width base_height"

AGENT = [
    Message(130, "create", *place(Word("parent", "0"), OVERRIDE)),
    Message(131, "destroy"),
    Message(132, "map", Word("transient_for", "0"), OVERRIDE),
    Message(133, "unmap"),
    Message(134, "configure", *place(OVERRIDE)),
    Message(136, "shmimage", *place()),
    Message(140, "clipboard_data", Data()),
    Message(141, "wmname", Text("title", 128)),
    Message(143, "dock"),
    Message(144, "window_hints", *(Word(name, "0") for name in HINTS.split())),
    Message(145, "window_flags", Word("set", "0"), Word("unset", "0")),
    Message(146, "wmclass", Text("class", 64), Text("name", 64)),
    Message(
        147, "window_dump", Word("type", "0"), Word("width"), Word("height"), Word("bpp", "32"), References()
    ),
    Message(148, "cursor", Word("cursor")),
]


def event(meanings):
    return Word("type", meanings=meanings), Word("x", signed=True), Word("y", signed=True), Word("state")


DAEMON = [
    Message(124, "KEYPRESS", *event({2: "press", 3: "release"}), Word("keycode")),
    Message(125, "BUTTON", *event({4: "press", 5: "release"}), Word("button")),
    Message(126, "MOTION", Word("x", signed=True), Word("y", signed=True), Word("state"), Word("is_hint")),
    Message(127, "CROSSING", *event({7: "enter", 8: "leave"}), Word("mode"), Word("detail"), Word("focus")),
    Message(128, "FOCUS", Word("type", meanings={9: "in", 10: "out"}), Word("mode"), Word("detail")),
    Message(134, "CONFIGURE", *place(Word("override"))),
    Message(137, "CLOSE"),
    Message(139, "CLIPBOARD_REQ"),
    Message(140, "CLIPBOARD_DATA", Digest()),
    Message(142, "KEYMAP_NOTIFY", Keys()),
    Message(149, "WINDOW_DUMP_ACK"),
]

AGENT_BY_KIND = {message.kind: message for message in AGENT}
AGENT_BY_NAME = {message.name: message for message in AGENT}
DAEMON_BY_KIND = {message.kind: message for message in DAEMON}


def spell_header(kind, window, body):
    return struct.pack("<III", kind, window, len(body)) + body


def spell_version(value):
    """The version word: the major number in the upper 16 bits, the minor number in the lower."""
    found = re.fullmatch(r"([0-9]+)\.([0-9]+)", value) if isinstance(value, str) else None
    if not found or max(int(found[1]), int(found[2])) > 65535:
        raise Wrong(f"a version is two numbers up to 65535 with a dot between: {told(value)}")
    return struct.pack("<I", int(found[1]) << 16 | int(found[2]))


def show_version(data):
    number = struct.unpack("<I", data)[0]
    return f"{number >> 16}.{number & 65535}"
