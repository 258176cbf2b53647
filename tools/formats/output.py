"""The output stream: its items from bytes, and as lines of text."""
import hashlib
import struct
from collections import namedtuple

from .lines import Wrong
from .messages import DAEMON_BY_KIND, show_version
from .picture import Picture

REPLY, ENDED, PICTURE, SUMMARY = range(1, 5)
FORMS = {REPLY: "<BI", ENDED: "<BBII", PICTURE: "<I", SUMMARY: "<4Q"}
NAMES = {REPLY: "reply", ENDED: "ended", PICTURE: "picture", SUMMARY: "summary"}
COUNTS = ("items", "messages", "glances", "painted")

# The causes by number: name, and what the values a and b are. None is a value that is always 0.
CAUSES = {
    1: ("BadVersion", "word", None),
    2: ("BadType", "type", None),
    3: ("BadLength", "length", None),
    4: ("BadRange", "field", "value"),
    5: ("UnknownWindow", "window", None),
    6: ("WindowExists", "window", None),
    7: ("TooManyWindows", "window", "limit"),
    8: ("RefRange", "reference", "pages"),
    9: ("FrameBudget", "need", "pages"),
    10: ("PixelBudget", "need", "free"),
    11: ("ClipTooLong", "length", None),
    12: ("StreamEnded", None, None),
    13: ("LinkFailed", None, None),
}

# An item of the output: its offset, its kind, its numbers and the bytes behind them.
Post = namedtuple("Post", "offset kind numbers data")


class OutputFault(Exception):
    """What is wrong with an output, and the offset of the item in which it is."""

    def __init__(self, offset, sentence):
        super().__init__(sentence)
        self.offset = offset


def posts_of(stream):
    """The items of an output, read one by one from a binary stream."""
    offset = 0
    kind = stream.read(1)
    while kind:
        post = read_post(stream, offset, kind[0])
        yield post
        offset += 1 + struct.calcsize(FORMS[post.kind]) + len(post.data)
        kind = stream.read(1)


def read_post(stream, offset, kind):
    if kind not in FORMS:
        raise OutputFault(offset, f"{kind} is no kind of output")
    size = struct.calcsize(FORMS[kind])
    fixed = stream.read(size)
    if len(fixed) < size:
        raise OutputFault(offset, f"the output ends within the numbers of a {NAMES[kind]}")
    numbers = struct.unpack(FORMS[kind], fixed)
    length = numbers[-1] if kind in (REPLY, PICTURE) else 0
    data = read_all(stream, length)
    if len(data) < length:
        raise OutputFault(offset, f"the output ends within the bytes of a {NAMES[kind]}")
    return Post(offset, kind, numbers, data)


def read_all(stream, length):
    """So many bytes, or as many as are there. No room is made for more than come."""
    parts = []
    while length:
        part = stream.read(min(length, 1 << 20))
        if not part:
            break
        parts.append(part)
        length -= len(part)
    return b"".join(parts)


class Teller:
    """Tells the items of one output as lines of text, with so many pictures for each Snap."""

    def __init__(self, widest_map=64, colours=False, outputs=1):
        self.widest_map = widest_map
        self.colours = colours
        self.outputs = outputs
        self.greeted = set()
        self.pictures = 0
        self.finished = False

    def lines(self, post):
        if self.finished:
            raise OutputFault(post.offset, "something follows the summary")
        try:
            return getattr(self, NAMES[post.kind])(post)
        except Wrong as wrong:
            raise OutputFault(post.offset, str(wrong)) from None

    def reply(self, post):
        return [f"reply {post.numbers[0]} {self.reply_text(post.numbers[0], post.data)}"]

    def reply_text(self, guest, data):
        """The version word and xconf come before a guest's first message, and so are told apart."""
        if guest not in self.greeted and len(data) == 4:
            return "version " + show_version(data)
        if guest not in self.greeted and len(data) == 16:
            self.greeted.add(guest)
            return "xconf width={} height={} depth={} mem={}".format(*struct.unpack("<4I", data))
        return message_text(data)

    def ended(self, post):
        guest, number, *values = post.numbers
        name, *meanings = CAUSES.get(number, ("unknown", "a", "b"))
        words = [f"{meaning or key}={value}" for meaning, key, value in zip(meanings, "ab", values) if meaning or value]
        return [" ".join([f"ended {guest} cause {number} {name}"] + words)]

    def picture(self, post):
        picture = Picture(post.data)
        self.pictures += 1
        digest = hashlib.sha256(post.data).hexdigest()[:16]
        lines = [f"picture {self.picture_name()}: {picture.width} by {picture.height}, sha256 {digest}"]
        small = max(picture.width, picture.height) <= self.widest_map
        letters = picture.map() if small else None
        if letters:
            return lines + ["    " + line for line in letters]
        if self.colours:
            return lines + [f"    {colour:06x} {count}" for colour, count in picture.colours()]
        return lines

    def picture_name(self):
        """The number of the picture, and with several outputs those of its Snap and its output, from 1."""
        if self.outputs == 1:
            return str(self.pictures)
        snap, output = divmod(self.pictures - 1, self.outputs)
        return f"{self.pictures} (snap {snap + 1}, output {output + 1})"

    def summary(self, post):
        self.finished = True
        return ["summary " + " ".join(f"{name}={number}" for name, number in zip(COUNTS, post.numbers))]


def message_text(data):
    """A message of the daemon as text."""
    if len(data) < 12:
        raise Wrong(f"a reply of {len(data)} bytes is no message")
    kind, window, length = struct.unpack_from("<III", data)
    if length != len(data) - 12:
        raise Wrong(f"the reply's header states {length} bytes and {len(data) - 12} follow it")
    if kind not in DAEMON_BY_KIND:
        raise Wrong(f"a reply has the type {kind}, which the daemon doesn't write")
    message = DAEMON_BY_KIND[kind]
    shown = message.show(data[12:])
    if shown is None:
        raise Wrong(f"a {message.name} can't have {length} bytes")
    return f"{message.name} {window} {shown}".rstrip()
